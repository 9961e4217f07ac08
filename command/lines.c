/* The lines of files, one after the other, and the state that they begin with. */
#include "command.h"
#include <errno.h>
#include <string.h>
#include <unistd.h>

/* Whether the bytes are a state: a table without macros takes an empty line. */
static int is_state(uint8_t *state)
{
    static uint8_t no_macros[M7_TABLE_BYTES], output[M7_OUTPUT_BYTES], trace[M7_TRACE_BYTES];
    return m7_feed(no_macros, sizeof no_macros, state, M7_STATE_BYTES, NULL, 0, 0, output,
                   sizeof output, trace, sizeof trace).number == 0;
}

/* Whether the bytes are a state, perhaps of the old size; the state is what they say. */
static int take_state(const uint8_t *bytes, size_t size, uint8_t *state)
{
    if (size == M7_OLD_STATE_BYTES)
        return m7_widen(bytes, size, state, M7_STATE_BYTES).number == 0;
    memcpy(state, bytes, M7_STATE_BYTES);
    return is_state(state);
}

int load_state(const char *name, uint8_t *state)
{
    static const char advice[] = "name a state that m7 run saved, or remove the file to begin afresh";
    static uint8_t bytes[M7_STATE_BYTES + 1];
    size_t size;
    m7_fresh(state, M7_STATE_BYTES);
    if (name == NULL || (access(name, F_OK) != 0 && errno == ENOENT))
        return FINE;
    if (!load(name, advice, bytes, sizeof bytes, &size))
        return WRONG;
    if (size != M7_STATE_BYTES && size != M7_OLD_STATE_BYTES)
        return complain("%s: a state has %d bytes, this file %s; %s", name, M7_STATE_BYTES,
                        size > M7_STATE_BYTES ? "has more" : "has fewer", advice);
    if (take_state(bytes, size, state))
        return FINE;
    return complain("%s: %d: %s; %s", name, M7_BAD_STATE, m7_meaning(M7_BAD_STATE), advice);
}

int one_input(int count, char **words)
{
    int named = 0;
    for (int i = 0; i < count; i++)
        named += strcmp(words[i], "-") == 0;
    return named + (count == 1) <= 1;
}

int of_reading(const m7_answer *answer)
{
    return answer->number >= M7_FILE_TOO_LONG && answer->number <= M7_TOO_MANY_MACROS;
}

/* Of a $MACRO line as it was sent: the place of the fault in it, else 0. */
static size_t fault_in_line(const m7_answer *answer)
{
    return of_reading(answer) && answer->passes == 0 ? strlen("$MACRO") + answer->place : 0;
}

void show_refusal(FILE *out, const struct line *line, const m7_answer *answer, const char *after)
{
    size_t at = fault_in_line(answer);
    fprintf(out, "%s:%zu:", line->name, line->number);
    if (at > 0)
        fprintf(out, "%zu:", at + 1);
    fprintf(out, " %u: %s%s\n", (unsigned)answer->number, m7_meaning(answer->number), after);
    if (at > 0)
        show_line(out, line->bytes, line->size, at);
}

/* The lines of a file. */
static int each_of(const char *name, int (*take)(void *with, const struct line *line), void *with)
{
    static const char advice[] = "name files with lines that can be read";
    static struct line line;
    FILE *file = open_to_read(name, advice);
    int going = 1, ended = FINE;
    if (file == NULL)
        return WRONG;
    line.name = shown_name(name);
    line.number = 0;
    while (going && next_line(file, line.bytes, sizeof line.bytes, &line.size)) {
        line.number++;
        going = take(with, &line);
    }
    if (ferror(file))
        ended = complain("%s: %s; %s", line.name, strerror(errno), advice);
    close_read(file);
    return ended != FINE ? ended : going ? FINE : REFUSED;
}

int each_line(int count, char **names, int (*take)(void *with, const struct line *line), void *with)
{
    static char input[] = "-";
    char *only[] = {input};
    int ended = FINE;
    if (count == 0 && isatty(STDIN_FILENO) && isatty(STDERR_FILENO))
        fputs("m7: type lines, each is answered at once; Ctrl-D ends\n", stderr);
    if (count == 0) {
        names = only;
        count = 1;
    }
    for (int i = 0; i < count && ended == FINE; i++)
        ended = each_of(names[i], take, with);
    return ended;
}
