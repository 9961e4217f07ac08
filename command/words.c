/* m7 words: the words of text files that a word-pattern covers. */
#include "command.h"
#include <errno.h>
#include <string.h>

enum { ASCII_END = 128 };

struct pattern {
    const uint8_t *bytes;
    size_t size;
};

/* Whether a byte of the pattern is beyond ASCII. */
static int beyond_ascii(const struct pattern *pattern)
{
    for (size_t i = 0; i < pattern->size; i++)
        if (pattern->bytes[i] >= ASCII_END)
            return 1;
    return 0;
}

/* Looks the pattern up in an empty line: FINE, or WRONG after a message. */
static int check_pattern(const char *word, const struct pattern *pattern)
{
    m7_answer answer = m7_words(NULL, 0, pattern->bytes, pattern->size);
    if (answer.number == 0)
        return FINE;
    return complain("'%s': %u: %s; %s", word, (unsigned)answer.number, m7_meaning(answer.number),
                    beyond_ascii(pattern) ? "write its letters in ISO 8859-1, iconv converts them"
                                          : "write it like CA-T, where a dash is any run of letters and digits");
}

/* Looks a line up and shows it if it has words; the answer is their number. */
static uint32_t look_up(const struct pattern *pattern, const struct line *line)
{
    m7_answer answer = m7_words(line->bytes, line->size, pattern->bytes, pattern->size);
    if (answer.number != 0) {
        fflush(stdout);
        fprintf(stderr, "%s:%zu: %u: %s\n", line->name, line->number, (unsigned)answer.number,
                m7_meaning(answer.number));
    } else if (answer.length > 0) {
        printf("%s:%zu:%zu: %u\t", line->name, line->number, (size_t)answer.place + 1,
               (unsigned)answer.length);
        fwrite(line->bytes, 1, line->size, stdout);
        putchar('\n');
    }
    return answer.length;
}

/* Looks the lines of a file up; `found` is set if one has words. */
static int look_in_file(const struct pattern *pattern, const char *name, int *found)
{
    static const char advice[] = "name text files that can be read";
    static struct line line;
    FILE *file = open_to_read(name, advice);
    int ended = FINE;
    if (file == NULL)
        return WRONG;
    line.name = shown_name(name);
    line.number = 0;
    while (!ferror(stdout) && next_line(file, line.bytes, sizeof line.bytes, &line.size)) {
        line.number++;
        if (look_up(pattern, &line) > 0)
            *found = 1;
    }
    if (ferror(file))
        ended = complain("%s: %s; %s", line.name, strerror(errno), advice);
    close_read(file);
    return ended;
}

/* Takes the pattern and the files out of the words. A pattern may begin with a
   dash; with two it is none, so that is taken as an option. The answer is the
   number of both, or -1 after a message. */
static int take_words(int count, char **words)
{
    int files;
    if (count == 0 || strncmp(words[0], "--", 2) == 0)
        return take_options(&words_command, count, words, NULL, 0);
    files = take_options(&words_command, count - 1, words + 1, NULL, 0);
    return files < 0 ? files : files + 1;
}

static int run(int count, char **words)
{
    struct pattern pattern;
    int found = 0, ended;
    count = take_words(count, words);
    if (count < 0)
        return WRONG;
    if (count == 0)
        return usage(&words_command, "name a word-pattern");
    pattern.bytes = (const uint8_t *)words[0];
    pattern.size = strlen(words[0]);
    ended = check_pattern(words[0], &pattern);
    if (ended != FINE)
        return ended;
    if (count == 1)
        ended = look_in_file(&pattern, "-", &found);
    for (int i = 1; i < count; i++)
        if (look_in_file(&pattern, words[i], &found) != FINE)
            ended = WRONG;
    return ended != FINE ? ended : found ? FINE : REFUSED;
}

const struct command words_command = {
    "words", "PATTERN [FILES..]", "looks words up in text files",
    "Shows each line of the files, or of standard input, that has words which PATTERN\n"
    "covers, as FILE:LINE:COLUMN: N, a tab and the line. The column is that of the\n"
    "first such word, in bytes from 1, and N is the number of such words.\n\n"
    "A word is a longest run of letters and digits. PATTERN is letters, digits and\n"
    "dashes, no two dashes in a row. A dash stands for any run of letters and digits,\n"
    "also none, and the pattern must cover the whole word: CA-T covers CAT, CART and\n"
    "CATARACT, not SCAT and not CATS. Case counts. Letters are those of ISO 8859-1,\n"
    "one byte each. Write -- before the pattern -h, which else asks for this help.\n\n"
    "A line that is too long or holds a byte 0 is told on standard error as\n"
    "FILE:LINE: NUMBER and its meaning; the others are still looked up. As with grep\n"
    "the end is 0 if a line was shown, 1 if none was, and 2 if the words or a file do\n"
    "not fit; a file that cannot be read is told, and the others are looked up.\n",
    run};
