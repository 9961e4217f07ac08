/* The passes of a line one at a time, by the rules of 01's part 6: each pass is a
   line fed to its macro alone. The calls before a pattern run in a macro's first pass
   on a line (02, N2), so for the later ones they are taken out of it. Of a refused line
   there is no other trace, and the trace of another may have texts with line feeds. */
#include "command.h"
#include <string.h>

/* In a slot: the symbol <, where the length of the calls before the pattern stands,
   and the bytes before the items, of which these calls are the first. */
enum { ONCE = 1, CALLS_LENGTH = 2, HEADER_BYTES = 10 };

size_t macros_in(const uint8_t *macros)
{
    size_t count = 0;
    while (count < M7_MOST_MACROS && macros[M7_SLOT_BYTES * count] != 0)
        count++;
    return count;
}

void start_replay(struct replay *replay, const uint8_t *macros, const uint8_t *state,
                  const struct line *line)
{
    memset(replay, 0, sizeof *replay);
    replay->macros = macros;
    replay->count = macros_in(macros);
    memcpy(replay->state, state, sizeof replay->state);
    replay->state[M7_STATE_TRACE] = 1;
    replay->state[M7_STATE_NFLAG] = 0;
    memcpy(replay->text, line->bytes, line->size);
    replay->size = line->size;
}

/* The newest macro that is open and has not passed since the last occurrence;
   the oldest is 1, and 0 is none. */
static size_t next_macro(const struct replay *replay)
{
    size_t number = replay->count;
    while (number > 0 && (replay->closed[number - 1] || replay->passed[number - 1]))
        number--;
    return number;
}

/* A byte to send for the line feeds in the text; 0 if all that could be stand in it.
   $ could make a control line. */
static uint8_t unused_byte(const struct replay *replay)
{
    int byte = 1;
    while (byte <= UINT8_MAX
           && (byte == '\n' || byte == '$' || memchr(replay->text, byte, replay->size) != NULL))
        byte++;
    return byte <= UINT8_MAX ? (uint8_t)byte : 0;
}

/* Adds as a newer macro one that makes line feeds of that byte. */
static void add_feeds(uint8_t *table, uint8_t byte)
{
    static uint8_t feeds[M7_TABLE_BYTES];
    char file[] = "'\\?'<'\\n';";
    size_t from = byte == 'n' || byte == 't'; /* \n and \t are other bytes */
    file[from] = '\'';
    file[2] = (char)byte;
    m7_read((const uint8_t *)file + from, strlen(file + from), feeds, sizeof feeds);
    memcpy(table + M7_SLOT_BYTES, feeds, M7_SLOT_BYTES);
}

/* Takes the calls before the pattern out of a slot. */
static void drop_calls(uint8_t *slot)
{
    size_t calls = slot[CALLS_LENGTH] + (size_t)256 * slot[CALLS_LENGTH + 1];
    size_t rest = M7_SLOT_BYTES - HEADER_BYTES - calls;
    memmove(slot + HEADER_BYTES, slot + HEADER_BYTES + calls, rest);
    memset(slot + HEADER_BYTES + rest, 0, calls);
    memset(slot + CALLS_LENGTH, 0, 2);
}

/* Feeds the text to one macro, which then is closed, so that it has one pass. A line
   feed cannot be sent: another byte is, and a pass before makes line feeds of it. */
static m7_answer feed_to(struct replay *replay, size_t number, uint8_t *output, uint8_t *trace)
{
    static uint8_t alone[M7_TABLE_BYTES], sent[M7_MOST_LINE_BYTES];
    uint8_t byte = replay->feeds ? unused_byte(replay) : 0;
    memcpy(alone, replay->macros + M7_SLOT_BYTES * (number - 1), M7_SLOT_BYTES);
    alone[0] = ONCE;
    if (replay->begun[number - 1])
        drop_calls(alone);
    memset(alone + M7_SLOT_BYTES, 0, 2 * M7_SLOT_BYTES); /* a $MACRO line may have filled them */
    if (byte != 0)
        add_feeds(alone, byte);
    for (size_t i = 0; i < replay->size; i++)
        sent[i] = replay->text[i] == '\n' && byte != 0 ? byte : replay->text[i];
    return m7_feed(alone, sizeof alone, replay->state, sizeof replay->state, sent, replay->size,
                   byte != 0 ? 2 : 1, output, M7_OUTPUT_BYTES, trace, M7_TRACE_BYTES);
}

/* The lines of a pass in a trace, but for its texts. */
static const char around[] = "oldline:\nmacro #:1\nnewline:\n";

/* Makes the text before the pass and after it those in its trace. */
static void take_texts(struct replay *replay, size_t number, const uint8_t *trace)
{
    const uint8_t *new = trace + strlen(around) - 1 + replay->size;
    size_t size = strlen((const char *)new) - 1;
    memcpy(replay->before, replay->text, replay->size);
    replay->step = (struct step){number, replay->before, replay->size, replay->text, size};
    memcpy(replay->text, new, size);
    replay->size = size;
    replay->feeds = memchr(new, '\n', size) != NULL;
}

enum replayed next_pass(struct replay *replay)
{
    static uint8_t output[M7_OUTPUT_BYTES], trace[M7_TRACE_BYTES];
    size_t number = next_macro(replay);
    const uint8_t *of_pass = trace + (replay->feeds ? strlen(around) + 2 * replay->size : 0);
    m7_answer answer;
    if (number == 0)
        return NONE_DUE;
    replay->step.number = number;
    replay->answer = answer = feed_to(replay, number, output, trace);
    replay->begun[number - 1] = 1;
    if (answer.number == M7_BAD_BYTE)
        return UNKNOWN;
    if (answer.number != 0)
        return ENDED;
    replay->passed[number - 1] = 1;
    if (*of_pass == 0)
        return PASSED;
    memset(replay->passed, 0, sizeof replay->passed);
    replay->closed[number - 1] = replay->macros[M7_SLOT_BYTES * (number - 1)] == ONCE;
    take_texts(replay, number, of_pass);
    return answer.kind == M7_CONTROL ? ENDED : OCCURRED;
}
