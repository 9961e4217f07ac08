/* m7 explain: what the numbers mean. */
#include "command.h"

/* What is said of a number beside its meaning. The examples with a table are
   run by the tests. */
struct number {
    uint32_t number;
    const char *causes;
    const char *text;
    const char *table, *line, *budget; /* an example, or NULL */
    const char *words;                 /* an example in words, or NULL */
};

static const char host[] = "the host, that is the program that calls the library";
static const char sender[] = "whoever sends the line";
static const char writer[] = "the table writer, in a macro file or after $MACRO";
static const char mended[] = "the table writer, in a macro file that is read past its faults";
static const char work[] = "the table at work on a line";
static const char reader[] = "whoever looks words up";

static const struct number numbers[] = {
    {M7_BAD_TABLE, host,
     "The table's memory does not hold what m7_read or m7_feed left there. Lend those\n"
     "bytes, or read the macro file again; so too for a table that was kept since\n"
     "before calls could stand before a pattern.\n",
     NULL, NULL, NULL, "a table whose first byte was set to 3"},
    {M7_BAD_STATE, host,
     "The state's memory does not hold what m7_fresh, m7_widen or m7_feed left there.\n"
     "Lend those bytes, or begin with m7_fresh. With m7 run: the file of --state is\n"
     "damaged.\n",
     NULL, NULL, NULL, "a state whose first byte, a flag, was set to 2"},
    {M7_BAD_MEMORY, host,
     "A table, a state, an output, a trace or a file to write to has another size than\n"
     "m7.h states. Take the sizes M7_TABLE_BYTES and so on from there. A state that\n"
     "was kept since before entries held 100 bytes goes through m7_widen first; m7 run\n"
     "--state does that by itself.\n",
     NULL, NULL, NULL, "m7_fresh with a memory of 100 bytes"},
    {M7_BUDGET_TOO_LARGE, host,
     "A line may have 1,000,000 passes at most. m7 run takes no larger number.\n",
     NULL, NULL, NULL, "m7_feed with the budget 1,000,001"},
    {M7_FILE_TOO_LONG, writer,
     "A macro file has at most 32,768 bytes, comments counted. Written out, a table\n"
     "can be longer than the file that it was read from. Divide it into two tables.\n",
     NULL, NULL, NULL, "a file of 32,769 bytes, whatever they are"},
    {M7_ZERO_BYTE, writer,
     "A macro file is plain text. One that was saved as UTF-16 has a byte 0 beside\n"
     "each letter: save it as UTF-8 or ISO 8859-1.\n",
     NULL, NULL, NULL, "a file that was saved as UTF-16"},
    {M7_INCOMPLETE, writer,
     "A macro is 'pattern', then = or <, then 'replacement', then commands, then ; at\n"
     "its end. One of these is missing, or a quoted text, class, call or skip (from a\n"
     "/ to the next) is not ended. Inside quotes write \\' for a quote, \\; for ; and\n"
     "\\n for a line feed. A call before a pattern begins its macro: no ; may stand\n"
     "between the two. Put a comment that holds &( or #( between two /.\n",
     "'a'='b'", NULL, NULL, NULL},
    {M7_BAD_CLASS, writer,
     "A class [..] has a member. The ends of a range are two lower case letters, two\n"
     "upper case letters or two digits, rising or equal. Write \\- for a dash that is a\n"
     "member, or put it last.\n",
     "'[z-a]'='b';", NULL, NULL, NULL},
    {M7_NO_UNIT, writer,
     "* and *- repeat the letter, ?n, class or call before them. There is none at the\n"
     "start of a pattern and after a brace, ^, $ or another closure. Write \\* for a\n"
     "star.\n",
     "'a**'='b';", NULL, NULL, NULL},
    {M7_BAD_BRACE, writer,
     "In a pattern { and } bound a tag, each { has its }, and there are at most 99\n"
     "tags. Write \\{ or \\} for a brace.\n",
     "'a}'='b';", NULL, NULL, NULL},
    {M7_BAD_CALL, writer,
     "&(..) calls a stack and #(..) a counter; i is a letter from a to z.\n"
     "  before a pattern   &(i=n) &(i:text:) #(i=n) #(i,n)\n"
     "  in a pattern       &(i) #(i)\n"
     "  in a replacement   {n} &(i) &(n,i) &(i=n) &(i:text:) #(i) #(i=n) #(i,n) #(i:n)\n"
     "  as a command       &(n,i) &(i=n) &(i:text:) #(i=n) #(i,n)\n"
     "Except in a pattern, one + or - may stand before or after the i of &(i), &(n,i),\n"
     "&(i:text:) and #(i). The n of {n} and &(n,i) is a tag that the pattern has, that\n"
     "of &(i=n) is 1 to 20, that of #(i=n), #(i,n) and #(i:n) 1 to 999,999,999. A text\n"
     "has at most 100 bytes. Write \\{ for a brace, and \\& or \\# where no call is\n"
     "meant; before a pattern \\ has no effect: put a comment between two /.\n",
     "'a'='{2}';", NULL, NULL, NULL},
    {M7_NO_ELEMENT, writer,
     "Between its quotes a pattern has something to match. Braces alone do not count;\n"
     "'^' matches the start of a line and '$' its end.\n",
     "''='b';", NULL, NULL, NULL},
    {M7_MACRO_TOO_LONG, writer,
     "From a macro's first quote to its ; there are at most 512 bytes, spaces and\n"
     "comments counted; with calls before its pattern, from the & or # of the first.\n"
     "Written out, a macro can be longer, since a \\ is put before more bytes than need\n"
     "one. Divide the macro in two.\n",
     NULL, NULL, NULL, "a pattern of 600 letters"},
    {M7_TOO_MANY_MACROS, writer,
     "A table has at most 96 macros, those that $MACRO added counted. The place is\n"
     "where the next one begins: its first quote, or the & or # of a call before its\n"
     "pattern. Take out what is no longer needed, or run two tables one after the\n"
     "other.\n",
     NULL, NULL, NULL, "a file with 97 macros"},
    {M7_LINE_TOO_LONG, sender,
     "A line has at most 1,054 bytes, its line feed not counted. Divide it.\n",
     NULL, NULL, NULL, "a line of 1,055 bytes"},
    {M7_BAD_BYTE, sender,
     "A line is text without byte 0, and is fed without the line feed at its end. A\n"
     "file that was saved as UTF-16 has a byte 0 beside each letter.\n",
     NULL, NULL, NULL, "a line with a byte 0 in it"},
    {M7_BAD_CONTROL, sender,
     "A line that begins with $ is a command: $TRACE 0, $TRACE 1, $NFLAG 0, $NFLAG 1,\n"
     "without a space at the end, or $MACRO and one macro. There are no others. It can\n"
     "also be a line that the macros made to begin with $.\n",
     "'a'='b';", "$TRACE 2", NULL, NULL},
    {M7_BUDGET_USED_UP, work,
     "After each change the line is looked at again from the newest macro on. Here\n"
     "that did not end within the budget: mostly a replacement that its own pattern,\n"
     "or that of another macro, finds again. Write < where once is enough, or take a\n"
     "larger budget. m7 trace shows the passes.\n",
     "'int'='integer';", "print", "262", NULL},
    {M7_NEW_LINE_TOO_LONG, work,
     "A pass makes a line of at most 1,054 bytes. Mostly a replacement holds what its\n"
     "own pattern finds, so that the line grows with each pass. Write < where once is\n"
     "enough. m7 trace shows the passes.\n",
     "'int'='integer';", "print", NULL, NULL},
    {M7_TAG_TOO_LONG, work,
     "&(n,i) stores tag n in an entry of a stack, which has 100 bytes. Let the tag\n"
     "match less.\n",
     "'{a*}'<'b'&(1,t);'x'<'aaaaaaaaaa';", "xxxxxxxxxxx", NULL, NULL},
    {M7_POINTER_TOO_HIGH, work,
     "A stack has 20 entries, and a + moves its pointer up by one. Move it down with -\n"
     "when an entry is no longer needed, or set it with &(i=n). A call before a\n"
     "pattern runs on every line that tries its macro, also where nothing fits.\n",
     "'c'<'&(s=20)&(+s)';", "c", NULL, NULL},
    {M7_COUNTER_TOO_HIGH, work,
     "A counter goes from 1 to 999,999,999, and a + adds its increment. Set it back\n"
     "with #(i=n).\n",
     "'d'<'#(n=999999999)#(+n)';", "d", NULL, NULL},
    {M7_TRACE_TOO_LONG, work,
     "While TRACE is 1, each pass in which a macro occurred writes three lines to the\n"
     "trace, which has 65,536 bytes in all. Here they do not fit: mostly a replacement\n"
     "holds what its own pattern finds, so that there are many passes. Write < where\n"
     "once is enough, or feed the line while TRACE is 0. m7 trace shows the passes.\n",
     NULL, NULL, NULL, "$TRACE 1, and then print under 'int'='integer';"},
    {M7_BAD_WORD_PATTERN, reader,
     "A word-pattern is letters, digits and dashes, without two dashes in a row; it\n"
     "has no spaces, dots or stars. One dash already stands for any run of letters and\n"
     "digits, also none: CA-T covers CAT, CART and CATARACT. A letter is one byte, as\n"
     "in ISO 8859-1: in UTF-8 those beyond ASCII are more, so convert them by iconv.\n",
     NULL, NULL, NULL, "m7 words 'CA--T'"},
    {M7_LONG_ENTRY, host,
     "m7_narrow goes back to a state of the old size, whose entries have 50 bytes, and\n"
     "an entry of this state has more. Keep the state as it is, or store a shorter\n"
     "text there first.\n",
     NULL, NULL, NULL, "m7_narrow of a state with an entry of 51 bytes"},
    {M7_TOO_MANY_FAULTS, mended,
     "m7 check shows all faults of a macro file: it leaves a macro with a fault out\n"
     "and goes on behind the next ; of the file, for 256 faults at most. Mend the\n"
     "first ones and check again: one lost quote can show as many faults. Or the file\n"
     "is no macro file at all.\n",
     NULL, NULL, NULL, "a file of 257 lines 'a;"},
};

enum { NUMBERS = sizeof numbers / sizeof numbers[0] };

static void show_short(uint32_t number)
{
    printf("%u: %s\n", (unsigned)number, m7_meaning(number));
}

static void show(const struct number *number)
{
    show_short(number->number);
    printf("Caused by %s.\n%sExample:\n", number->causes, number->text);
    if (number->table != NULL)
        printf("    table   %s\n", number->table);
    if (number->line != NULL)
        printf("    line    %s\n", number->line);
    if (number->budget != NULL)
        printf("    budget  %s\n", number->budget);
    if (number->words != NULL)
        printf("    %s\n", number->words);
}

static const struct number *listed(const char *word)
{
    uint32_t value;
    if (!take_number(word, UINT32_MAX, &value))
        return NULL;
    for (size_t i = 0; i < NUMBERS; i++)
        if (numbers[i].number == value)
            return &numbers[i];
    return NULL;
}

static int run(int count, char **words)
{
    count = take_options(&explain_command, count, words, NULL, 0);
    if (count < 0)
        return WRONG;
    for (size_t i = 0; count == 0 && i < NUMBERS; i++)
        show_short(numbers[i].number);
    for (int i = 0; i < count; i++) {
        const struct number *number = listed(words[i]);
        if (number == NULL)
            return complain("%s is no number of a refusal; m7 explain alone lists them", words[i]);
        if (i > 0)
            putchar('\n');
        show(number);
    }
    return FINE;
}

const struct command explain_command = {
    "explain", "[NUMBER..]", "says what a number means",
    "Says of each number what it means, who causes it, what to do, and gives an\n"
    "example. Without a number it lists all.\n",
    run};
