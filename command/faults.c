/* All faults of a macro file. Where reading is refused with 12 to 18, m7_recover
   leaves the macro out and goes on behind the next ; of the file. */
#include "command.h"
#include <string.h>

static uint8_t kept[M7_TABLE_BYTES], listed[M7_FAULTS_BYTES];

/* A number of the list: its count stands at 0, then number and place of each fault. */
static uint32_t listed_at(size_t index)
{
    const uint8_t *at = listed + 4 * index;
    return at[0] + 256u * at[1] + 65536u * at[2] + 16777216u * at[3];
}

/* Behind the first ; at or after a place, or the file's end if there is none. */
static size_t behind(const struct table *table, size_t at)
{
    const uint8_t *end = memchr(table->file + at, ';', table->size - at);
    return end == NULL ? table->size : (size_t)(end - table->file) + 1;
}

/* Shows a fault; reading then goes on behind it. Its number joins those seen. */
static void show_next(FILE *out, struct table *table, uint32_t number, uint32_t place, uint64_t *seen)
{
    table->answer.number = number;
    table->answer.place = place;
    show_fault(out, table);
    table->from = behind(table, place);
    *seen |= (uint64_t)1 << number;
}

static void show_listed(FILE *out, struct table *table, uint64_t *seen)
{
    for (size_t i = 0; i < listed_at(0); i++)
        show_next(out, table, listed_at(2 * i + 1), listed_at(2 * i + 2), seen);
}

/* Names the help on each number that was seen. */
static void show_help(FILE *out, uint64_t seen)
{
    fprintf(out, "m7 explain");
    for (unsigned number = 0; number < 64; number++)
        if (seen >> number & 1)
            fprintf(out, " %u", number);
    fprintf(out, " says more\n");
}

static void show_sum(FILE *out, const struct table *table, uint32_t macros, uint32_t faults)
{
    fprintf(out, "%s: %u macro%s read, %u fault%s\n", table->name, (unsigned)macros,
            macros == 1 ? "" : "s", (unsigned)faults, faults == 1 ? "" : "s");
}

static m7_answer recover(const struct table *table, size_t size)
{
    return m7_recover(table->file, size, kept, sizeof kept, listed, sizeof listed);
}

/* A 97th macro ends the reading. The faults before it are those of the file up to it. */
static void show_until(FILE *out, struct table *table, uint32_t place, uint64_t *seen)
{
    m7_answer before = recover(table, place);
    show_listed(out, table, seen);
    show_next(out, table, M7_TOO_MANY_MACROS, place, seen);
    show_sum(out, table, before.length, listed_at(0) + 1);
}

void show_faults(FILE *out, struct table *table)
{
    m7_answer answer = recover(table, table->size);
    uint64_t seen = 0;
    if (answer.number == 0) {
        show_listed(out, table, &seen);
        show_sum(out, table, answer.length, listed_at(0));
    } else if (answer.number == M7_TOO_MANY_MACROS) {
        show_until(out, table, answer.place, &seen);
    } else {
        show_next(out, table, table->answer.number, table->answer.place, &seen);
    }
    if (answer.number == M7_TOO_MANY_FAULTS) {
        fprintf(out, "%s: %u: %s; the first is shown\n", table->name, (unsigned)answer.number,
                m7_meaning(answer.number));
        seen |= (uint64_t)1 << answer.number;
    }
    show_help(out, seen);
}
