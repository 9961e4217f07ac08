/* m7 write: a macro file in its plain form. */
#include "command.h"
#include <string.h>

static struct table table;
static uint8_t file[M7_FILE_BYTES];

/* The first macro that alone is refused, counted from 0. */
static size_t refused_macro(void)
{
    static uint8_t alone[M7_TABLE_BYTES];
    size_t i;
    for (i = 0; i < table.answer.length; i++) {
        memcpy(alone, table.macros + M7_SLOT_BYTES * i, M7_SLOT_BYTES);
        if (m7_write(alone, sizeof alone, file, sizeof file).number != 0)
            break;
    }
    return i;
}

static void show_refused(const m7_answer *answer)
{
    char kind[128];
    snprintf(kind, sizeof kind, "%u: %s as it is written out", (unsigned)answer->number,
             m7_meaning(answer->number));
    if (answer->number == M7_MACRO_TOO_LONG)
        show_place(stderr, &table, macro_start(&table, refused_macro()), kind);
    else
        fprintf(stderr, "%s: %s\n", table.name, kind);
}

static int run(int count, char **words)
{
    m7_answer answer;
    int ended;
    count = take_options(&write_command, count, words, NULL, 0);
    if (count < 0)
        return WRONG;
    if (count != 1)
        return usage(&write_command, "name one macro file to write out");
    ended = load_table(words[0], &table);
    if (ended == REFUSED)
        show_first(stderr, &table);
    if (ended != FINE)
        return ended;
    answer = m7_write(table.macros, sizeof table.macros, file, sizeof file);
    if (answer.number != 0) {
        show_refused(&answer);
        return REFUSED;
    }
    fwrite(file, 1, answer.length, stdout);
    return FINE;
}

const struct command write_command = {
    "write", "TABLE", "writes a macro file out in its plain form",
    "Reads a macro file and writes its macros to standard output, the oldest first,\n"
    "each on a line of its own, with a \\ wherever a byte may need one. Comments and\n"
    "other ignored text are not written. Reading what was written gives the same\n"
    "table. It can be refused with 18 or 10 where the file itself was not: written\n"
    "out, a macro can be longer.\n\n"
    "Write to another file than TABLE: the shell empties that file first.\n",
    run};
