/* m7 run: lines through a table. */
#include "command.h"

static struct table table;
static uint8_t state[M7_STATE_BYTES];
static uint8_t output[M7_OUTPUT_BYTES];
static uint8_t trace[M7_TRACE_BYTES];

struct job {
    uint32_t budget;
    int strict;
    int seen_return; /* a line that ends in a carriage return was seen */
    int refused;     /* a line was refused */
};

/* Once in a run: what a carriage return does. */
static void note_return(struct job *job, const struct line *line)
{
    if (job->seen_return || line->size == 0 || line->bytes[line->size - 1] != '\r')
        return;
    job->seen_return = 1;
    fflush(stdout);
    fprintf(stderr,
            "%s:%zu: note: a carriage return ends this line, and the macros see it; "
            "to drop them all: tr -d '\\r'\n",
            line->name, line->number);
}

/* Feeds a line; 0 if the run ends with it. */
static int feed(void *with, const struct line *line)
{
    struct job *job = with;
    m7_answer answer = m7_feed(table.macros, sizeof table.macros, state, sizeof state,
                               line->bytes, line->size, job->budget, output, sizeof output,
                               trace, sizeof trace);
    note_return(job, line);
    if (answer.number != 0) {
        fflush(stdout);
        show_refusal(stderr, line, &answer,
                     answer.passes > 0 && of_reading(&answer) ? ", in the $MACRO line that the macros made" : "");
        job->refused = 1;
        return !job->strict;
    }
    if (answer.kind == M7_OUT) {
        fwrite(output, 1, answer.length, stdout);
        putchar('\n');
    }
    return !ferror(stdout);
}

/* Feeds the lines and keeps the state, if all went to its end. */
static int run_job(struct job *job, const char *state_name, int count, char **names)
{
    int ended = each_line(count, names, feed, job);
    if (ended != WRONG && output_written() != FINE)
        ended = WRONG;
    if (ended != FINE && state_name != NULL)
        complain("%s was left as it was, since the run did not go to its end", state_name);
    if (ended == FINE && state_name != NULL && !save(state_name, state, sizeof state))
        ended = WRONG;
    return ended != FINE ? ended : job->refused ? REFUSED : FINE;
}

static int run(int count, char **words)
{
    struct option options[] = {
        {"--state", "a file", NULL}, {"--budget", "a number", NULL}, {"--strict", NULL, NULL}};
    struct job job = {USUAL_BUDGET, 0, 0, 0};
    int ended;
    count = take_options(&run_command, count, words, options, 3);
    if (count < 0)
        return WRONG;
    if (count == 0)
        return usage(&run_command, "name a macro file");
    if (!one_input(count, words))
        return usage(&run_command, "standard input can be read once only, as the table or as lines");
    if (options[1].given != NULL && !take_number(options[1].given, M7_MOST_BUDGET, &job.budget))
        return usage(&run_command, "--budget %s: a budget is a number from 0 to %d",
                     options[1].given, M7_MOST_BUDGET);
    job.strict = options[2].given != NULL;
    ended = load_table(words[0], &table);
    if (ended == REFUSED)
        show_first(stderr, &table);
    if (ended == FINE && options[0].given != NULL && !can_save(options[0].given))
        ended = WRONG;
    if (ended == FINE)
        ended = load_state(options[0].given, state);
    return ended != FINE ? ended : run_job(&job, options[0].given, count - 1, words + 1);
}

const struct command run_command = {
    "run", "TABLE [LINES..]", "rewrites lines by the macros of a table",
    "Feeds the lines of the files, or of standard input, to the macros of TABLE and\n"
    "writes each line that goes out to standard output. A refused line is told on\n"
    "standard error as FILE:LINE: NUMBER and its meaning; it changes nothing. Files\n"
    "are fed one after the other with one table and one state; - is standard input.\n\n"
    "  --state FILE   begins with the state in FILE, if there is such a file, and\n"
    "                 saves the state there at the end\n"
    "  --budget N     at most N passes of macros for each line, 0 to 1000000;\n"
    "                 10000 if it is not given\n"
    "  --strict       ends at the first refused line; a state file is then left\n"
    "                 as it was\n\n"
    "A carriage return before a line feed is a byte of its line.\n",
    run};
