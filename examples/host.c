/* A host in C: reads a macro file, feeds the lines of standard input, and
   prints what becomes of each.

       host TABLE < LINES */
#include "m7.h"
#include <stdio.h>

static uint8_t table[M7_TABLE_BYTES];
static uint8_t state[M7_STATE_BYTES];
static uint8_t output[M7_OUTPUT_BYTES];
static uint8_t trace[M7_TRACE_BYTES];

/* Reads a file whole, or one byte more than the engine takes of it. */
static int load(const char *name, uint8_t *bytes, size_t most, size_t *size)
{
    FILE *file = fopen(name, "rb");
    int fine;
    if (file == NULL)
        return 0;
    *size = fread(bytes, 1, most, file);
    fine = !ferror(file);
    fclose(file);
    return fine;
}

/* Reads a line without its line feed, of a long one the first `most` bytes;
   the answer is 0 at the end of the input. */
static int next_line(uint8_t *line, size_t most, size_t *size)
{
    int byte = getchar();
    if (byte == EOF)
        return 0;
    for (*size = 0; byte != EOF && byte != '\n'; byte = getchar())
        if (*size < most)
            line[(*size)++] = (uint8_t)byte;
    return 1;
}

/* Feeds one line and prints the line that goes out, or why there is none. */
static void feed(const uint8_t *line, size_t size)
{
    m7_answer a = m7_feed(table, sizeof table, state, sizeof state, line, size,
                          10000, output, sizeof output, trace, sizeof trace);
    if (a.number != 0) {
        printf("refused with %u after %u passes: %s\n", (unsigned)a.number,
               (unsigned)a.passes, m7_meaning(a.number));
    } else if (a.kind == M7_OUT) {
        fwrite(output, 1, a.length, stdout);
        putchar('\n');
    }
}

int main(int count, char **words)
{
    static uint8_t file[M7_FILE_BYTES + 1];
    static uint8_t line[M7_MOST_LINE_BYTES + 1];
    size_t size;
    m7_answer a;
    if (count != 2 || !load(words[1], file, sizeof file, &size)) {
        fprintf(stderr, "usage: host TABLE < LINES, with a TABLE that can be read\n");
        return 2;
    }
    a = m7_read(file, size, table, sizeof table);
    if (a.number != 0) {
        printf("refused with %u at %u: %s\n", (unsigned)a.number,
               (unsigned)a.place, m7_meaning(a.number));
        return 1;
    }
    m7_fresh(state, sizeof state);
    while (next_line(line, sizeof line, &size))
        feed(line, size);
    return 0;
}
