/* m7 trace: which macro did what to a line. */
#include "command.h"
#include <string.h>

/* Of a refused line so many passes with an occurrence are shown, first and last. */
enum { SHOWN_FIRST = 4, SHOWN_LAST = 4 };

static struct table table;
static uint8_t state[M7_STATE_BYTES];
static uint8_t output[M7_OUTPUT_BYTES];
static uint8_t trace[M7_TRACE_BYTES];

/* Table and state before the line. */
static uint8_t old_macros[M7_TABLE_BYTES], old_state[M7_STATE_BYTES];

/* Where the $MACRO line stood that added a macro. */
static struct {
    const char *name;
    size_t number;
} added[M7_MOST_MACROS];

struct job {
    uint32_t budget;
    uint32_t only; /* the number of the lines to show, 0 for all */
    int refused;   /* a line that was shown was refused */
};

/* STEPS */

/* Prints a macro's number, how it is written out, and where it stands. */
static void show_macro(size_t number)
{
    static uint8_t alone[M7_TABLE_BYTES], file[M7_FILE_BYTES];
    m7_answer answer;
    memcpy(alone, old_macros + M7_SLOT_BYTES * (number - 1), M7_SLOT_BYTES);
    answer = m7_write(alone, sizeof alone, file, sizeof file);
    printf("  macro %-3zu", number);
    if (answer.number == 0)
        show_text(stdout, file, answer.length - 1);
    else
        printf("(%s as it is written out)", m7_meaning(answer.number));
    if (added[number - 1].name != NULL)
        printf("  (%s:%zu)\n", added[number - 1].name, added[number - 1].number);
    else
        printf("  (%s:%zu)\n", table.name,
               place_of(table.file, table.size, macro_start(&table, number - 1)).line);
}

static void show_step(const struct step *step)
{
    static struct change change;
    show_macro(step->number);
    find_change(&change, step);
    if (change.from == change.old_to && change.from == change.new_to) {
        puts("    the text stays as it was");
        return;
    }
    show_marked(stdout, "    old    ", step->old, step->old_size, change.old_marks, change.from,
                change.old_to);
    show_marked(stdout, "    new    ", step->new, step->new_size, change.new_marks, change.from,
                change.new_to);
}

/* THE TRACE OF A LINE THAT WAS TAKEN */

static void show_trace(const struct line *line)
{
    static struct steps steps;
    start_steps(&steps, trace, macros_in(old_macros), line);
    while (take_step(&steps))
        show_step(&steps.step);
}

/* Feeds the line once more, to copies and with TRACE 1; 0 if the trace is too long. */
static int has_trace(const struct job *job, const struct line *line)
{
    static uint8_t macros[M7_TABLE_BYTES], traced[M7_STATE_BYTES], unused[M7_OUTPUT_BYTES];
    memcpy(macros, old_macros, sizeof macros);
    memcpy(traced, old_state, sizeof traced);
    traced[M7_STATE_TRACE] = 1;
    return m7_feed(macros, sizeof macros, traced, sizeof traced, line->bytes, line->size,
                   job->budget, unused, sizeof unused, trace, sizeof trace).number == 0;
}

/* THE PASSES OF A LINE ONE AT A TIME, where its trace has line feeds or there is none */

static struct replay replay;

/* Makes passes, of those that are left, until one has an occurrence. */
static enum replayed next_step(uint32_t *left)
{
    enum replayed last = PASSED;
    for (; last == PASSED && *left > 0; --*left)
        last = next_pass(&replay);
    return last;
}

static size_t count_steps(const struct line *line, uint32_t passes)
{
    size_t steps = 0;
    start_replay(&replay, old_macros, old_state, line);
    while (next_step(&passes) == OCCURRED)
        steps++;
    return steps;
}

/* What became of the pass after the last one with an occurrence. */
static void show_last(enum replayed last, const m7_answer *answer)
{
    if (last == UNKNOWN)
        puts("    the text now holds a line feed, and every byte that could be sent in its stead;\n"
             "    later passes cannot be shown");
    if (last != ENDED)
        return;
    if (answer->number == 0) {
        show_step(&replay.step);
        return;
    }
    show_macro(replay.step.number);
    puts(replay.answer.number >= M7_NEW_LINE_TOO_LONG && replay.answer.number <= M7_COUNTER_TOO_HIGH
             ? "    the line is refused in this pass"
             : "    makes a line that begins with $");
}

/* Shows all passes with an occurrence, or the first and the last. */
static void show_passes(const struct line *line, const m7_answer *answer, int all)
{
    size_t steps = all ? 0 : count_steps(line, answer->passes);
    size_t hidden = steps > SHOWN_FIRST + SHOWN_LAST ? steps - SHOWN_FIRST - SHOWN_LAST : 0;
    uint32_t left = answer->passes;
    enum replayed last;
    start_replay(&replay, old_macros, old_state, line);
    for (size_t i = 0; (last = next_step(&left)) == OCCURRED; i++) {
        if (i < SHOWN_FIRST || i >= SHOWN_FIRST + hidden)
            show_step(&replay.step);
        else if (i == SHOWN_FIRST)
            printf("  .. %zu more such passes ..\n", hidden);
    }
    show_last(last, answer);
}

/* LINES */

static void show_taken(const struct line *line, const m7_answer *answer, int occurred)
{
    size_t macros = macros_in(table.macros);
    printf("%s:%zu: %s", line->name, line->number,
           answer->kind == M7_OUT ? "goes out" : answer->kind == M7_WITHHELD ? "withheld" : "a control line");
    if (answer->passes > 0)
        printf(" after %u pass%s", (unsigned)answer->passes, answer->passes == 1 ? "" : "es");
    if (answer->kind != M7_CONTROL && !occurred)
        fputs(", no macro fits", stdout);
    if (macros > macros_in(old_macros))
        printf(", adds macro %zu", macros);
    putchar('\n');
}

static void show_refused(const struct line *line, const m7_answer *answer)
{
    char after[32] = "";
    if (answer->passes > 0)
        snprintf(after, sizeof after, ", after %u pass%s", (unsigned)answer->passes,
                 answer->passes == 1 ? "" : "es");
    show_refusal(stdout, line, answer, after);
}

static void show_row(const char *label, const uint8_t *bytes, size_t size)
{
    fputs(label, stdout);
    show_text(stdout, bytes, size);
    putchar('\n');
}

static void show(const struct job *job, const struct line *line, const m7_answer *answer)
{
    int traced = answer->number == 0 && has_trace(job, line);
    int occurred = answer->passes > 0 && (!traced || trace[0] != 0);
    if (answer->number == 0)
        show_taken(line, answer, occurred);
    else
        show_refused(line, answer);
    if (line->size <= M7_MOST_LINE_BYTES && !(of_reading(answer) && answer->passes == 0))
        show_row("  line     ", line->bytes, line->size);
    if (traced && is_plain(trace, macros_in(old_macros), line, answer, output))
        show_trace(line);
    else if (answer->passes > 0)
        show_passes(line, answer, traced);
    if (answer->kind == M7_OUT && occurred)
        show_row("  out      ", output, answer->length);
}

/* Feeds a line and shows it, if it is one of those to show. */
static int take(void *with, const struct line *line)
{
    struct job *job = with;
    size_t macros;
    m7_answer answer;
    memcpy(old_macros, table.macros, sizeof old_macros);
    memcpy(old_state, state, sizeof old_state);
    answer = m7_feed(table.macros, sizeof table.macros, state, sizeof state, line->bytes,
                     line->size, job->budget, output, sizeof output, trace, sizeof trace);
    if (job->only == 0 || job->only == line->number) {
        show(job, line, &answer);
        job->refused |= answer.number != 0;
    }
    macros = macros_in(table.macros);
    if (macros > macros_in(old_macros)) {
        added[macros - 1].name = line->name;
        added[macros - 1].number = line->number;
    }
    return !ferror(stdout);
}

static int run(int count, char **words)
{
    struct option options[] = {
        {"--state", "a file", NULL}, {"--budget", "a number", NULL}, {"--line", "a number", NULL}};
    struct job job = {USUAL_BUDGET, 0, 0};
    int ended;
    count = take_options(&trace_command, count, words, options, 3);
    if (count < 0)
        return WRONG;
    if (count == 0)
        return usage(&trace_command, "name a macro file");
    if (!one_input(count, words))
        return usage(&trace_command, "standard input can be read once only, as the table or as lines");
    if (options[1].given != NULL && !take_number(options[1].given, M7_MOST_BUDGET, &job.budget))
        return usage(&trace_command, "--budget %s: a budget is a number from 0 to %d",
                     options[1].given, M7_MOST_BUDGET);
    if (options[2].given != NULL && (!take_number(options[2].given, UINT32_MAX, &job.only) || job.only == 0))
        return usage(&trace_command, "--line %s: a line's number, from 1", options[2].given);
    ended = load_table(words[0], &table);
    if (ended == REFUSED)
        show_first(stderr, &table);
    if (ended == FINE)
        ended = load_state(options[0].given, state);
    if (ended == FINE)
        ended = each_line(count - 1, words + 1, take, &job);
    return ended != FINE ? ended : job.refused ? REFUSED : FINE;
}

const struct command trace_command = {
    "trace", "TABLE [LINES..]", "shows which macro did what to a line",
    "Feeds lines as m7 run does, and shows for each what becomes of it and each pass\n"
    "in which a macro occurred: the macro's number, the oldest is 1, how it is written\n"
    "out and where it stands, then the line before the pass and after it, with carets\n"
    "below what changed. Tabs and line feeds are shown as \\t and \\n. Of a refused line\n"
    "the first and the last such passes are shown, and the macro that was at work.\n"
    "The flag TRACE need not be set, and is not changed.\n\n"
    "  --line N       shows line N of each file only; the others are fed too\n"
    "  --state FILE   begins with the state in FILE, if there is such a file; it is\n"
    "                 not saved\n"
    "  --budget N     at most N passes of macros for each line, 0 to 1000000;\n"
    "                 10000 if it is not given\n",
    run};
