/* m7 check: the faults of a macro file, or what it takes and what in it is seldom
   meant. */
#include "command.h"

static struct table table;

static const char *ending(size_t count) { return count == 1 ? "" : "s"; }

/* A number of bytes, with a comma before its last three digits. */
static void show_bytes(uint32_t bytes)
{
    if (bytes >= 1000)
        printf("%u,%03u", (unsigned)(bytes / 1000), (unsigned)(bytes % 1000));
    else
        printf("%u", (unsigned)bytes);
}

/* Of a file without a fault: how large its macros are, and the file written out. */
static void show_plan(void)
{
    m7_plan plan = m7_measure(table.file, table.size);
    printf("    at most %u element%s and %u tag%s in a macro; ", (unsigned)plan.elements,
           ending(plan.elements), (unsigned)plan.tags, ending(plan.tags));
    if (plan.write_number != 0) {
        printf("it cannot be written out (%u): m7 write shows why\n", (unsigned)plan.write_number);
        return;
    }
    show_bytes(plan.bytes);
    printf(" of ");
    show_bytes(M7_FILE_BYTES);
    printf(" bytes written out\n");
}

static int check(const char *name, int strict)
{
    size_t warnings;
    int ended = load_table(name, &table);
    if (ended == WRONG)
        return WRONG;
    if (ended == REFUSED) {
        show_faults(stdout, &table);
        return REFUSED;
    }
    warnings = show_warnings(stdout, &table);
    printf("%s: %u macro%s, no fault", table.name, (unsigned)table.answer.length,
           ending(table.answer.length));
    if (warnings > 0)
        printf(", %zu warning%s", warnings, ending(warnings));
    putchar('\n');
    show_plan();
    return strict && warnings > 0 ? REFUSED : FINE;
}

static int run(int count, char **words)
{
    struct option options[] = {{"--strict", NULL, NULL}};
    int ended = FINE;
    count = take_options(&check_command, count, words, options, 1);
    if (count < 0)
        return WRONG;
    if (count == 0)
        return usage(&check_command, "name a macro file to check");
    for (int i = 0; i < count; i++) {
        int one = check(words[i], options[0].given != NULL);
        ended = one > ended ? one : ended;
    }
    return ended;
}

const struct command check_command = {
    "check", "TABLE..", "says what is wrong with a macro file",
    "Reads each macro file. Each fault is shown as FILE:LINE:COLUMN: NUMBER and its\n"
    "meaning, with the line and a caret; columns count bytes from 1. Of a 12 it also\n"
    "shows which part is not ended. Behind a fault it goes on after the next ; of the\n"
    "file, wherever that stands, so one lost quote can show as more than one fault:\n"
    "mend the first one first. After 10, 11, 19 and a 257th fault it does not go on.\n\n"
    "Without a fault it gives the number of macros, the most elements and the most\n"
    "tags that one has, and the bytes that the file has when it is written out, of\n"
    "32,768. It warns of what is seldom meant:\n"
    "  ignored text that holds &, #, a digit or a quote other than '\n"
    "  a call before a pattern with other text beside it\n"
    "  a skip that holds a quote or a line feed\n"
    "  a byte over 127 in a class\n"
    "  a macro that is the same as an older one\n\n"
    "  --strict   ends with 1 also after a warning\n\n"
    "m7 explain NUMBER says more about a number.\n",
    run};
