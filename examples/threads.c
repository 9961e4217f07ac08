/* A host with threads: runs songs, each by itself, on as many threads as are
   asked for, and prints what becomes of them in the order of their names.

       threads COUNT TABLE SONG..

   The library keeps nothing between calls. m7_feed may write the table, the
   state, the output and the trace, so each song has its own: a copy of the
   table, since a $MACRO line adds to it, and a fresh state. */
#include "m7.h"
#include <pthread.h>
#include <stdio.h>
#include <stdlib.h>
#include <string.h>

enum { MOST_THREADS = 64, BUDGET = 10000 };

/* The table as it was read; the threads only copy it. */
static uint8_t first_table[M7_TABLE_BYTES];

struct song {
    const char *name;
    char *said; /* what it prints, and its size */
    size_t size;
    int failed;
};

/* The songs, and which is the next to be taken. */
static struct song *songs;
static size_t count, next;
static pthread_mutex_t lock = PTHREAD_MUTEX_INITIALIZER;

/* The memories of one thread. */
struct memories {
    uint8_t table[M7_TABLE_BYTES];
    uint8_t state[M7_STATE_BYTES];
    uint8_t output[M7_OUTPUT_BYTES];
    uint8_t trace[M7_TRACE_BYTES];
    uint8_t line[M7_MOST_LINE_BYTES + 1];
};

/* Reads a line without its line feed, of a long one its first bytes. */
static int next_line(FILE *file, struct memories *m, size_t *size)
{
    int byte = getc(file);
    if (byte == EOF)
        return 0;
    for (*size = 0; byte != EOF && byte != '\n'; byte = getc(file))
        if (*size < sizeof m->line)
            m->line[(*size)++] = (uint8_t)byte;
    return 1;
}

/* Feeds the lines of a song from its file to `out`. */
static void feed(struct memories *m, const char *name, FILE *file, FILE *out)
{
    size_t size;
    memcpy(m->table, first_table, sizeof m->table);
    m7_fresh(m->state, sizeof m->state);
    for (unsigned long number = 1; next_line(file, m, &size); number++) {
        m7_answer a = m7_feed(m->table, sizeof m->table, m->state, sizeof m->state, m->line, size,
                              BUDGET, m->output, sizeof m->output, m->trace, sizeof m->trace);
        if (a.number != 0)
            fprintf(out, "%s:%lu: %u: %s\n", name, number, (unsigned)a.number, m7_meaning(a.number));
        else if (a.kind == M7_OUT)
            fprintf(out, "%.*s\n", (int)a.length, (const char *)m->output);
    }
}

static void run_song(struct memories *m, struct song *song)
{
    FILE *file = fopen(song->name, "rb");
    FILE *out = open_memstream(&song->said, &song->size);
    song->failed = file == NULL || out == NULL;
    if (!song->failed)
        feed(m, song->name, file, out);
    if (file != NULL && (ferror(file) || fclose(file) != 0))
        song->failed = 1;
    if (out != NULL && fclose(out) != 0)
        song->failed = 1;
}

/* A thread: takes the next song until there is none. */
static void *work(void *lent)
{
    struct memories *m = lent;
    for (;;) {
        size_t mine;
        pthread_mutex_lock(&lock);
        mine = next < count ? next++ : count;
        pthread_mutex_unlock(&lock);
        if (mine == count)
            return NULL;
        run_song(m, &songs[mine]);
    }
}

/* Runs all songs on so many threads; 0 if there was no memory or thread for that. */
static int run_all(size_t threads)
{
    pthread_t thread[MOST_THREADS];
    struct memories *memories = calloc(threads, sizeof *memories);
    size_t begun = 0;
    if (memories == NULL)
        return 0;
    while (begun < threads && pthread_create(&thread[begun], NULL, work, &memories[begun]) == 0)
        begun++;
    for (size_t i = 0; i < begun; i++)
        pthread_join(thread[i], NULL);
    free(memories);
    return begun > 0;
}

/* Reads the table; the answer is the number of its refusal. */
static uint32_t read_table(const char *name)
{
    static uint8_t file[M7_FILE_BYTES + 1];
    FILE *from = fopen(name, "rb");
    size_t size;
    m7_answer a;
    if (from == NULL) {
        fprintf(stderr, "threads: %s cannot be opened\n", name);
        exit(2);
    }
    size = fread(file, 1, sizeof file, from);
    fclose(from);
    a = m7_read(file, size, first_table, sizeof first_table);
    if (a.number != 0)
        fprintf(stderr, "threads: %s: %u: %s\n", name, (unsigned)a.number, m7_meaning(a.number));
    return a.number;
}

int main(int words, char **word)
{
    long threads = words < 4 ? 0 : strtol(word[1], NULL, 10);
    int failed = 0;
    if (threads < 1 || threads > MOST_THREADS) {
        fprintf(stderr, "usage: threads COUNT TABLE SONG.., COUNT from 1 to %d\n", MOST_THREADS);
        return 2;
    }
    if (read_table(word[2]) != 0)
        return 1;
    count = (size_t)words - 3;
    songs = calloc(count, sizeof *songs);
    for (size_t i = 0; songs != NULL && i < count; i++)
        songs[i].name = word[i + 3];
    if (songs == NULL || !run_all((size_t)threads))
        return 2;
    for (size_t i = 0; i < count; i++) {
        fwrite(songs[i].said, 1, songs[i].size, stdout);
        failed |= songs[i].failed;
        if (songs[i].failed)
            fprintf(stderr, "threads: %s could not be read\n", songs[i].name);
        free(songs[i].said);
    }
    free(songs);
    return failed ? 2 : 0;
}
