/* Holds replay.c and steps.c against the engine, on generated tables and lines.

   Of a line that is taken under TRACE 1 the passes one at a time give the same
   trace, the same text and the same number of passes. Of one that is refused they
   come to the same refusal in the same pass. A trace can be read line by line
   exactly if no text in it holds a line feed, and then gives the same passes.

       replay SEED LINES */
#include "../command.h"
#include <stdlib.h>
#include <string.h>

enum { MOST = 4096 };

static uint64_t seed;
static struct replay replay;
static struct line line;
static uint8_t table[M7_TABLE_BYTES], state[M7_STATE_BYTES], output[M7_OUTPUT_BYTES];
static uint8_t old_table[M7_TABLE_BYTES], old_state[M7_STATE_BYTES];
static uint8_t trace[M7_TRACE_BYTES], made[M7_TRACE_BYTES];
static size_t made_size, made_steps;
static int made_feeds; /* a text holds a line feed */
static char file[MOST];
static long taken, used_up, at_work, controls, unknown, plain, raw;

static void fail(const char *what)
{
    printf("replay: %s, of the table\n%s\nand the line\n%.*s\n", what, file, (int)line.size,
           (const char *)line.bytes);
    exit(1);
}

static uint32_t below(uint32_t bound)
{
    seed = seed * 6364136223846793005u + 1442695040888963407u;
    return (uint32_t)(seed >> 33) % bound;
}

#define ONE_OF(texts) (texts)[below(sizeof(texts) / sizeof(texts)[0])]

static void put_macro(void)
{
    static const char *const patterns[] = {
        "a", "b", "ab", "c*", "{a*}b", "^", "$", "b*-", "[ab]{c}", "^{?1}", "&(s)b", "#(n)", "x", "{?1*}c"};
    static const char *const texts[] = {
        "", "a", "b", "cc", "ab", "#(n+)", "&(s)", "$TRACE 1", "$", "$MACRO\\'a\\'=\\'\\'\\;", "\\n", "&(s+)a", "#(n=9)c",
        "&(s=19)&(+s)", "#(n=999999998)#(+n)", "#(n,400000000)", "$MACRO\\/\\n\\/\\'x\\'=\\'\\'\\;",
        "$MACRO\\/\\noldline:$MACRO\\/\\nmacro \\#:1\\nnewline:\\'x\\'=\\'\\'\\;",
        "\\noldline:", "\\nmacro \\#:1", "\\nmacro \\#:9999999", "\\nnewline:b",
        "b\\noldline:b\\nmacro \\#:1\\nnewline:b"};
    static const char *const before[] = {
        "#(n=1)", "&(s:a:)", "&(s+:b:)", "&(s=20)&(-s:c:)", "#(n,3)#(n=19)", "&(s=20)&(+s:x:)"};
    size_t size = strlen(file);
    snprintf(file + size, sizeof file - size, "%s'%s'%c'%s%s'%s;", below(3) ? "" : ONE_OF(before), ONE_OF(patterns),
             "<="[below(2)], ONE_OF(texts), below(3) ? "" : ONE_OF(texts), below(3) ? "" : "&(s:b:)");
}

static void put_line(void)
{
    line.size = below(7);
    for (size_t i = 0; i < line.size; i++)
        line.bytes[i] = (uint8_t)"aabbcx19"[below(8)];
}

static void add(const void *bytes, size_t size)
{
    if (made_size + size > sizeof made)
        fail("too long a trace");
    memcpy(made + made_size, bytes, size);
    made_size += size;
}

static void add_step(const struct step *step)
{
    char number[32];
    snprintf(number, sizeof number, "\nmacro #:%zu\nnewline:", step->number);
    add("oldline:", 8);
    add(step->old, step->old_size);
    add(number, strlen(number));
    add(step->new, step->new_size);
    add("\n", 1);
    made_steps++;
    made_feeds |= memchr(step->new, '\n', step->new_size) != NULL;
}

/* Makes so many passes, or as many as can be made, and their trace. */
static enum replayed make_passes(uint32_t *passes)
{
    enum replayed last = PASSED;
    made_size = made_steps = 0;
    made_feeds = 0;
    start_replay(&replay, old_table, old_state, &line);
    for (; *passes > 0 && (last == PASSED || last == OCCURRED); --*passes) {
        last = next_pass(&replay);
        if (last == OCCURRED || (last == ENDED && replay.answer.kind == M7_CONTROL))
            add_step(&replay.step);
    }
    return last;
}

/* The trace is that of the passes that were made, and so are its lines if they can
   be read so. */
static void hold_trace(const m7_answer *answer)
{
    size_t macros = macros_in(old_table), count = made_steps;
    struct steps steps;
    if (memcmp(made, trace, made_size) != 0 || (made_size < sizeof trace && trace[made_size] != 0))
        fail("another trace");
    if (is_plain(trace, macros, &line, answer, output) == made_feeds)
        fail("a trace can be read line by line, or cannot");
    *(made_feeds ? &raw : &plain) += made_steps > 0;
    if (made_feeds)
        return;
    made_size = made_steps = 0;
    start_steps(&steps, trace, macros, &line);
    while (take_step(&steps))
        add_step(&steps.step);
    if (steps.at != steps.end || made_steps != count || memcmp(made, trace, made_size) != 0)
        fail("other passes, read line by line");
}

/* A line that goes out or is withheld: all passes are made, and no other is due. */
static void hold_taken(const m7_answer *answer, enum replayed last, uint32_t left)
{
    if (left != 0 || (last != PASSED && last != OCCURRED) || next_pass(&replay) != NONE_DUE)
        fail("another number of passes");
    hold_trace(answer);
    if (answer->kind == M7_OUT
        && (answer->length != replay.size || memcmp(output, replay.text, replay.size) != 0))
        fail("another text");
    taken++;
}

/* A refusal in a pass, or of the pass that would follow. */
static void hold_refused(const m7_answer *answer, enum replayed last, uint32_t left)
{
    if (left != 0)
        fail("another number of passes");
    if (answer->number != M7_BUDGET_USED_UP) {
        at_work++;
        if (last != ENDED || replay.answer.number != answer->number)
            fail("another refusal");
        return;
    }
    used_up++;
    if (last == ENDED || last == NONE_DUE || next_pass(&replay) == NONE_DUE)
        fail("no other pass is due");
}

static void hold(const m7_answer *answer)
{
    uint32_t left = answer->passes;
    enum replayed last = make_passes(&left);
    int control = answer->kind == M7_CONTROL || answer->number == M7_BAD_CONTROL
                  || (answer->number >= M7_FILE_TOO_LONG && answer->number <= M7_TOO_MANY_MACROS);
    if (last == UNKNOWN) {
        unknown++;
    } else if (control) {
        controls++;
        if (left != 0 || (answer->passes > 0 && last != ENDED))
            fail("another number of passes up to a control line");
        if (answer->number == 0)
            hold_trace(answer);
    } else if (answer->number == 0) {
        hold_taken(answer, last, left);
    } else {
        hold_refused(answer, last, left);
    }
}

/* Feeds the line, and holds what comes of it. */
static void feed_line(uint32_t budget)
{
    m7_answer answer;
    memcpy(old_table, table, sizeof table);
    memcpy(old_state, state, sizeof state);
    memset(trace, 0, sizeof trace);
    answer = m7_feed(table, sizeof table, state, sizeof state, line.bytes, line.size, budget, output,
                     sizeof output, trace, sizeof trace);
    hold(&answer);
}

/* The table in the file and a fresh state with TRACE 1; 0 if the file is refused. */
static int begin(void)
{
    m7_fresh(state, sizeof state);
    state[M7_STATE_TRACE] = 1;
    return m7_read((const uint8_t *)file, strlen(file), table, sizeof table).number == 0;
}

/* A table, and some lines in turn. */
static long one_case(void)
{
    uint32_t count = 1 + below(5);
    *file = 0;
    for (uint32_t macros = 1 + below(4); macros > 0; macros--)
        put_macro();
    if (!begin())
        return 0;
    state[M7_STATE_NFLAG] = (uint8_t)below(2);
    for (uint32_t i = 0; i < count; i++) {
        put_line();
        feed_line(below(40));
    }
    return (long)count;
}

/* A line of all bytes but one, or of all, to which passes add a line feed and remove it. */
static void all_but(unsigned without)
{
    strcpy(file, "'\\n'<'';'^'<'\\n';");
    line.size = 0;
    for (unsigned byte = UINT8_MAX; byte > 0; byte--)
        if (byte != '\n' && byte != without)
            line.bytes[line.size++] = (uint8_t)byte;
    if (!begin())
        fail("refused");
    feed_line(9);
}

/* Any byte but $ can be sent for a line feed, if it is not in the text. */
static void all_bytes(void)
{
    for (unsigned byte = 1; byte <= UINT8_MAX; byte++)
        if (byte != '\n' && byte != '$')
            all_but(byte);
    if (unknown != 0)
        fail("a line feed could not be fed");
    all_but('$');
    all_but('\n');
    if (unknown != 2)
        fail("a line feed was fed");
}

int main(int count, char **words)
{
    long lines = count == 3 ? atol(words[2]) : 0;
    seed = count == 3 ? (uint64_t)atol(words[1]) : 0;
    all_bytes();
    for (long i = 0; i < lines;)
        i += one_case();
    if (unknown != 2)
        fail("a line feed could not be fed");
    printf("replay.c agrees with the engine on %ld lines: %ld out or withheld, %ld control, %ld refused with 31, "
           "%ld with 32 to 35\n", taken + controls + used_up + at_work + unknown, taken, controls, used_up, at_work);
    printf("steps.c agrees with it on %ld traces, and reads none of %ld that have line feeds in their texts\n", plain, raw);
    return taken > 0 && controls > 0 && used_up > 0 && at_work > 0 && plain > 0 && raw > 0 ? 0 : 1;
}
