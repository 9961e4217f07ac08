/* Measures the stack that calls use: each runs on a thread of its own whose
   stack is painted first; what is no longer paint was used. `stack plain` runs
   the calls on the program's own stack, to be tried under `ulimit -s`.
   `stack search SEED COUNT` feeds lines to random patterns and to changes of
   the one that used most, and shows that one. */
#define _GNU_SOURCE
#include "../include/m7.h"
#include <pthread.h>
#include <stdio.h>
#include <stdlib.h>
#include <string.h>

enum { STACK_BYTES = 2 << 20, PAINT = 0xA5, MOST_PATTERN = 506, MOST_TAGS = 99 };

static uint8_t table[M7_TABLE_BYTES];
static uint8_t written[M7_FILE_BYTES];
static uint8_t file[M7_FILE_BYTES];
static uint8_t state[M7_STATE_BYTES];
static uint8_t old[M7_OLD_STATE_BYTES];
static uint8_t output[M7_OUTPUT_BYTES];
static uint8_t trace[M7_TRACE_BYTES];
static uint8_t faults[M7_FAULTS_BYTES];
static uint8_t line[M7_MOST_LINE_BYTES];
static size_t line_size;
static size_t file_size;
static m7_answer answer;
static int plain, traced;

static void *nothing(void *unused) { return unused; }

static void *reads(void *unused)
{
    answer = m7_read(file, file_size, table, sizeof table);
    return unused;
}

static void *recovers(void *unused)
{
    answer = m7_recover(file, file_size, table, sizeof table, faults, sizeof faults);
    return unused;
}

static void *measures(void *unused)
{
    answer.number = m7_measure(file, file_size).number;
    return unused;
}

static void *writes(void *unused)
{
    answer = m7_write(table, sizeof table, written, sizeof written);
    return unused;
}

static void *feeds(void *unused)
{
    answer = m7_feed(table, sizeof table, state, sizeof state, line, line_size,
                     10000, output, sizeof output, trace, sizeof trace);
    return unused;
}

static void *narrows(void *unused)
{
    answer = m7_narrow(state, sizeof state, old, sizeof old);
    return unused;
}

static void *widens(void *unused)
{
    answer = m7_widen(old, sizeof old, state, sizeof state);
    return unused;
}

/* The bytes of stack that a thread with this task uses. */
static size_t used_by(void *(*task)(void *))
{
    uint8_t *stack = aligned_alloc(4096, STACK_BYTES);
    pthread_attr_t attributes;
    pthread_t thread;
    size_t low = 0;
    memset(stack, PAINT, STACK_BYTES);
    pthread_attr_init(&attributes);
    pthread_attr_setstack(&attributes, stack, STACK_BYTES);
    if (pthread_create(&thread, &attributes, task, NULL) != 0)
        exit(1);
    pthread_join(thread, NULL);
    while (low < STACK_BYTES && stack[low] == PAINT)
        low++;
    free(stack);
    return STACK_BYTES - low;
}

static void show(const char *name, void *(*task)(void *))
{
    size_t idle, all;
    if (plain) {
        task(NULL);
        printf("%-46s number %2u  returned\n", name, answer.number);
        return;
    }
    idle = used_by(nothing);
    all = used_by(task);
    printf("%-46s number %2u  %7zu bytes\n", name, answer.number, all - idle);
}

static void add(const char *text)
{
    memcpy(file + file_size, text, strlen(text));
    file_size += strlen(text);
}

/* A macro whose pattern has a unit many times, over a line of 1,054 bytes. */
static void mixed(const char *first, const char *unit, int times, const char *last)
{
    char name[64];
    int i;
    file_size = 0;
    add("'");
    add(first);
    for (i = 0; i < times; i++)
        add(unit);
    add(last);
    add("'<'';");
    m7_read(file, file_size, table, sizeof table);
    m7_fresh(state, sizeof state);
    state[M7_STATE_TRACE] = (uint8_t)traced;
    memset(line, 'a', sizeof line);
    line_size = sizeof line;
    snprintf(name, sizeof name, "m7_feed%s, %s, %d times %s, %s", traced ? " (TRACE 1)" : "", first,
             times, unit, last);
    show(name, feeds);
}

static void worst(const char *unit, int times, const char *last)
{
    mixed("", unit, times, last);
}

/* Closures over every byte, each before a byte that stands once in the line. */
static void singled(int times)
{
    char pair[2] = { 0 };
    int i;
    file_size = 0;
    memset(line, 'z', sizeof line);
    add("'");
    for (i = 0; i < times; i++) {
        pair[0] = (char)(128 + i);
        line[2 * i + 1] = (uint8_t)pair[0];
        add("?1*");
        add(pair);
    }
    add("'<'';");
    m7_read(file, file_size, table, sizeof table);
    m7_fresh(state, sizeof state);
    line_size = sizeof line;
    show("m7_feed, 126 times ?1* and a byte of its own", feeds);
}

/* Units of a random pattern; those with braces have a tag each. */
static const char *const units[] = {
    "a", "b", "a*", "b*", "a*-", "b*-", "a*-^", "b*-^", "?1", "?1*", "?1*-", "?1*-^", "?3*-",
    "[ab]*", "[ab]*-", "[~b]*-", "[~b]*-^", "^", "$", "a*-$", "{a*-}", "{a*-^}", "{?1*}", "{}",
    "{^}", "&(a)", "&(a)*-", "#(n)*-",
};

enum { UNITS = sizeof units / sizeof units[0], RUNS = 3 };

typedef struct {
    uint8_t unit[MOST_PATTERN];
    uint8_t line[M7_MOST_LINE_BYTES];
} trial;

static uint64_t seed;

static unsigned below(unsigned bound)
{
    seed = seed * 6364136223846793005u + 1442695040888963407u;
    return (unsigned)(seed >> 33) % bound;
}

/* A line of one letter, of two in turn, or of runs of letters. */
static void any_line(trial *t)
{
    static const unsigned longest[RUNS] = { 3, 40, 400 };
    unsigned kind = below(3), run = longest[below(RUNS)], left = 0, i;
    uint8_t letter = 'a';
    for (i = 0; i < sizeof t->line; i++) {
        if (kind == 1)
            letter = "ab"[i % 2];
        if (kind == 2 && left == 0) {
            letter = "aab"[below(3)];
            left = 1 + below(run);
        }
        left -= kind == 2;
        t->line[i] = letter;
    }
}

/* Units of a few sorts, in turn or at random. */
static void any_trial(trial *t)
{
    unsigned sorts = 1 + below(4), in_turn = below(2), sort[4], i;
    for (i = 0; i < sorts; i++)
        sort[i] = below(UNITS);
    for (i = 0; i < MOST_PATTERN; i++)
        t->unit[i] = (uint8_t)sort[in_turn ? i % sorts : below(sorts)];
    any_line(t);
}

/* A run of units replaced, or another line. */
static void change(trial *t)
{
    unsigned from = below(MOST_PATTERN), size = 1 + below(100), unit = below(UNITS);
    if (below(4) == 0) {
        any_line(t);
        return;
    }
    for (; size > 0 && from < MOST_PATTERN; size--)
        t->unit[from++] = (uint8_t)unit;
}

/* As many of the units as a macro holds, over the trial's line; 0 where it is refused. */
static size_t used_in(const trial *t)
{
    size_t tags = 0, i;
    file_size = 0;
    add("'");
    for (i = 0; i < MOST_PATTERN; i++) {
        const char *unit = units[t->unit[i]];
        size_t more = tags + (unit[0] == '{');
        if (more <= MOST_TAGS && file_size - 1 + strlen(unit) <= MOST_PATTERN) {
            add(unit);
            tags = more;
        }
    }
    add("'<'';");
    if (m7_read(file, file_size, table, sizeof table).number != 0)
        return 0;
    m7_fresh(state, sizeof state);
    memcpy(line, t->line, sizeof line);
    line_size = sizeof line;
    return used_by(feeds);
}

static void search(unsigned long count)
{
    static trial best, next;
    size_t most = 0, idle = used_by(nothing), used;
    unsigned long i;
    for (i = 0; i < count; i++) {
        if (i % 2 == 0)
            any_trial(&next);
        else
            change(memcpy(&next, &best, sizeof next));
        used = used_in(&next);
        if (used > most) {
            most = used;
            best = next;
        }
    }
    used_in(&best);
    printf("%zu bytes at most in %lu trials, with\n%.*s\non %.60s..\n", most - idle, count,
           (int)file_size, file, line);
}

static void nested(int depth)
{
    int i;
    file_size = 0;
    add("'");
    for (i = 0; i < depth; i++)
        add("{");
    add("a");
    for (i = 0; i < depth; i++)
        add("}");
    add("'='{1}';");
}

int main(int count, char **words)
{
    plain = count == 2;
    if (count == 4) {
        seed = strtoul(words[2], NULL, 10);
        search(strtoul(words[3], NULL, 10));
        return 0;
    }
    nested(99);
    show("m7_read, 99 nested tags", reads);
    show("m7_measure, 99 nested tags", measures);
    show("m7_write, 99 nested tags", writes);
    file_size = 0;
    while (file_size + 12 <= sizeof file)
        add("'a*-b'='c'; ");
    show("m7_read, 97 macros", reads);
    show("m7_measure, 97 macros", measures);
    file_size = 0;
    while (file_size + 7 <= 256 * 7)
        add("'a**b';");
    show("m7_recover, 256 faults", recovers);
    file_size = 0;
    add("'");
    while (file_size < 500)
        add("[a-z]*");
    add("'='';");
    show("m7_read, classes", reads);
    show("m7_measure, classes", measures);
    show("m7_recover, classes", recovers);
    show("m7_write, classes", writes);
    m7_fresh(state, sizeof state);
    show("m7_narrow", narrows);
    show("m7_widen", widens);
    worst("a*-", 168, "b");
    worst("a*-", 168, "");
    worst("a*", 252, "b");
    worst("a*", 253, "");
    worst("{a*-}", 99, "b");
    worst("{a*-}", 99, "");
    worst("a", 505, "b");
    worst("?1", 252, "");
    worst("[ab]*", 84, "c");
    worst("&(a)*-", 84, "b");
    worst("a*-^", 126, "b");
    worst("a*-^", 126, "a*");
    worst("a*-^", 125, "a*-aab");
    singled(126);
    mixed("a*-", "$", 501, "b");
    mixed("a*-&(b)", "$", 497, "b");
    mixed("a*-&(b)", "{}", 99, "b");
    nested(99);
    m7_read(file, file_size, table, sizeof table);
    show("m7_feed, 99 nested tags", feeds);
    memcpy(line, "$MACRO 'a'='b';", 15);
    line_size = 15;
    show("m7_feed, $MACRO", feeds);
    traced = 1;
    worst("a*-^", 126, "b");
    worst("a*-^", 126, "a*");
    worst("a*", 253, "");
    return 0;
}
