/* Holds include/m7.h against the archive: the header is taken by compilers of
   C and C++ with all warnings, its layouts are what a call writes, its sizes
   are what a call takes, its bounds show at their first byte too many, and
   every number that it names comes up and has a meaning. This file is C99 and
   C++98. */
#include "m7.h"
#include "m7.h"
#include <stddef.h>
#include <stdio.h>
#include <stdlib.h>
#include <string.h>

/* A memory to lend, with room behind it, and what it held before a call. */
typedef struct memory {
    uint8_t now[M7_TABLE_BYTES + 64];
    uint8_t before[M7_TABLE_BYTES + 64];
} memory;

static memory table, state, old, output, trace, file, faults, text;
static size_t text_size;
static m7_answer answer;
static m7_plan plan;
static int seen[64];
static int checks;

#define CHECK(fine) check((fine) ? 1 : 0, #fine, __LINE__)

static void check(int fine, const char *what, int line)
{
    checks++;
    if (!fine) {
        printf("header.c:%d: does not hold: %s\n", line, what);
        printf("the last answer was %lu %lu %lu %lu %lu\n",
               (unsigned long)answer.number, (unsigned long)answer.place,
               (unsigned long)answer.passes, (unsigned long)answer.kind,
               (unsigned long)answer.length);
        exit(1);
    }
}

/* TEXTS */

static void none(void) { text_size = 0; }

static void add(const char *more, size_t times)
{
    size_t size = strlen(more);
    for (; times > 0; times--) {
        memcpy(text.now + text_size, more, size);
        text_size += size;
    }
}

static void say(const char *all)
{
    none();
    add(all, 1);
}

/* CALLS */

static int same(const memory *m)
{
    return memcmp(m->now, m->before, sizeof m->now) == 0;
}

static void keep(void)
{
    memcpy(table.before, table.now, sizeof table.now);
    memcpy(state.before, state.now, sizeof state.now);
    memcpy(old.before, old.now, sizeof old.now);
    memcpy(output.before, output.now, sizeof output.now);
    memcpy(trace.before, trace.now, sizeof trace.now);
    memcpy(file.before, file.now, sizeof file.now);
    memcpy(faults.before, faults.now, sizeof faults.now);
    memcpy(text.before, text.now, sizeof text.now);
}

/* A refused call leaves every memory as it was; what is const stays always. */
static void after(void)
{
    CHECK(answer.number < 64 && same(&text));
    seen[answer.number] = 1;
    if (answer.number != 0) {
        CHECK(same(&table) && same(&state) && same(&output));
        CHECK(same(&trace) && same(&file) && same(&faults) && same(&old));
        CHECK(answer.kind == 0 && answer.length == 0);
    }
}

static uint32_t read_sized(size_t table_size)
{
    keep();
    answer = m7_read(text.now, text_size, table.now, table_size);
    after();
    return answer.number;
}

static uint32_t reading(void) { return read_sized(M7_TABLE_BYTES); }

static uint32_t write_sized(size_t table_size, size_t file_size)
{
    keep();
    answer = m7_write(table.now, table_size, file.now, file_size);
    after();
    CHECK(same(&table));
    return answer.number;
}

static uint32_t writing(void) { return write_sized(M7_TABLE_BYTES, M7_FILE_BYTES); }

static uint32_t fresh_sized(size_t state_size)
{
    keep();
    answer = m7_fresh(state.now, state_size);
    after();
    return answer.number;
}

static uint32_t widen_sized(size_t old_size, size_t state_size)
{
    keep();
    answer = m7_widen(old.now, old_size, state.now, state_size);
    after();
    CHECK(same(&table) && same(&old) && same(&output) && same(&file));
    CHECK(answer.place == 0 && answer.passes == 0 && answer.kind == 0 && answer.length == 0);
    return answer.number;
}

static uint32_t widening(void) { return widen_sized(M7_OLD_STATE_BYTES, M7_STATE_BYTES); }

static uint32_t narrow_sized(size_t state_size, size_t old_size)
{
    keep();
    answer = m7_narrow(state.now, state_size, old.now, old_size);
    after();
    CHECK(same(&table) && same(&state) && same(&output) && same(&file));
    CHECK(answer.place == 0 && answer.passes == 0 && answer.kind == 0 && answer.length == 0);
    return answer.number;
}

static uint32_t narrowing(void) { return narrow_sized(M7_STATE_BYTES, M7_OLD_STATE_BYTES); }

static uint32_t feed_sized(size_t table_size, size_t state_size, size_t output_size,
                           size_t trace_size, uint32_t budget)
{
    keep();
    answer = m7_feed(table.now, table_size, state.now, state_size, text.now, text_size,
                     budget, output.now, output_size, trace.now, trace_size);
    after();
    return answer.number;
}

static uint32_t feeding(uint32_t budget)
{
    return feed_sized(M7_TABLE_BYTES, M7_STATE_BYTES, M7_OUTPUT_BYTES, M7_TRACE_BYTES, budget);
}

/* Looking words up alters no memory, refused or not. */
static uint32_t looking(const char *pattern)
{
    keep();
    answer = m7_words(text.now, text_size, (const uint8_t *)pattern, strlen(pattern));
    after();
    CHECK(same(&table) && same(&state) && same(&output) && same(&file));
    CHECK(answer.passes == 0 && answer.kind == 0);
    return answer.number;
}

static uint32_t recover_sized(size_t table_size, size_t faults_size)
{
    keep();
    answer = m7_recover(text.now, text_size, table.now, table_size, faults.now, faults_size);
    after();
    CHECK(same(&state) && same(&output) && same(&file));
    return answer.number;
}

static uint32_t recovering(void) { return recover_sized(M7_TABLE_BYTES, M7_FAULTS_BYTES); }

/* Measuring alters no memory, and refuses what reading refuses. */
static uint32_t measuring(void)
{
    keep();
    plan = m7_measure(text.now, text_size);
    CHECK(same(&text) && same(&table) && same(&state) && same(&output) && same(&file));
    if (plan.number != 0) {
        CHECK(plan.macros == 0 && plan.elements == 0 && plan.tags == 0 && plan.bytes == 0);
        CHECK(plan.write_number == 0 && plan.write_place == 0);
    }
    CHECK(reading() == plan.number && answer.place == plan.place);
    CHECK(answer.length == plan.macros);
    return plan.number;
}

/* A macro file that is taken, and a fresh state. */
static void use(const char *macros)
{
    say(macros);
    CHECK(reading() == 0);
    CHECK(fresh_sized(M7_STATE_BYTES) == 0);
}

static uint32_t feed(const char *line)
{
    say(line);
    return feeding(10000);
}

/* THE ANSWER */

typedef char answer_has_20_bytes[sizeof(m7_answer) == 20 ? 1 : -1];
typedef char number_is_first[offsetof(m7_answer, number) == 0 ? 1 : -1];
typedef char place_is_second[offsetof(m7_answer, place) == 4 ? 1 : -1];
typedef char passes_is_third[offsetof(m7_answer, passes) == 8 ? 1 : -1];
typedef char kind_is_fourth[offsetof(m7_answer, kind) == 12 ? 1 : -1];
typedef char length_is_fifth[offsetof(m7_answer, length) == 16 ? 1 : -1];

/* m7_feed as the x86-64 convention has it: the answer goes to memory that the
   first argument points to. So it is seen which bytes a call writes. */
typedef void (*written_feed)(uint8_t *result, uint8_t *, size_t, uint8_t *, size_t,
                             const uint8_t *, size_t, uint32_t, uint8_t *, size_t,
                             uint8_t *, size_t);
typedef m7_answer (*named_feed)(uint8_t *, size_t, uint8_t *, size_t,
                                const uint8_t *, size_t, uint32_t, uint8_t *, size_t,
                                uint8_t *, size_t);

static void answer_bytes(const char *line, uint32_t wanted[5])
{
    named_feed named = m7_feed;
    written_feed written;
    uint8_t result[64];
    uint32_t fields[5];
    size_t i;
    memcpy(&written, &named, sizeof written);
    memset(result, 0xA5, sizeof result);
    say(line);
    written(result, table.now, M7_TABLE_BYTES, state.now, M7_STATE_BYTES, text.now,
            text_size, 10000, output.now, M7_OUTPUT_BYTES, trace.now, M7_TRACE_BYTES);
    memcpy(fields, result, sizeof fields);
    for (i = 0; i < 5; i++)
        CHECK(fields[i] == wanted[i]);
    for (i = sizeof fields; i < sizeof result; i++)
        CHECK(result[i] == 0xA5);
    memcpy(&answer, result, sizeof answer);
    CHECK(answer.number == wanted[0] && answer.place == wanted[1]);
    CHECK(answer.passes == wanted[2] && answer.kind == wanted[3]);
    CHECK(answer.length == wanted[4]);
}

static void answers(void)
{
    uint32_t refused[5] = {M7_NO_UNIT, 4, 2, 0, 0};
    uint32_t out[5] = {0, 0, 3, M7_OUT, 5};
    uint32_t *number = &answer.number, *place = &answer.place, *passes = &answer.passes;
    uint32_t *kind = &answer.kind, *length = &answer.length;
    CHECK(sizeof *number + sizeof *place + sizeof *passes + sizeof *kind + sizeof *length == 20);
    use("'^x'<'$MACRO ';'y'='z';");
    answer_bytes("x'a**'", refused);
    answer_bytes("yyyyy", out);
}

/* THE PLAN */

typedef char plan_has_32_bytes[sizeof(m7_plan) == 32 ? 1 : -1];
typedef char plan_number_is_first[offsetof(m7_plan, number) == 0 ? 1 : -1];
typedef char plan_place_is_second[offsetof(m7_plan, place) == 4 ? 1 : -1];
typedef char macros_is_third[offsetof(m7_plan, macros) == 8 ? 1 : -1];
typedef char elements_is_fourth[offsetof(m7_plan, elements) == 12 ? 1 : -1];
typedef char tags_is_fifth[offsetof(m7_plan, tags) == 16 ? 1 : -1];
typedef char bytes_is_sixth[offsetof(m7_plan, bytes) == 20 ? 1 : -1];
typedef char write_number_is_seventh[offsetof(m7_plan, write_number) == 24 ? 1 : -1];
typedef char write_place_is_eighth[offsetof(m7_plan, write_place) == 28 ? 1 : -1];

/* m7_measure as the x86-64 convention has it, as m7_feed above. */
typedef void (*written_measure)(uint8_t *result, const uint8_t *, size_t);
typedef m7_plan (*named_measure)(const uint8_t *, size_t);

static void plan_bytes(const uint32_t wanted[8])
{
    named_measure named = m7_measure;
    written_measure written;
    uint8_t result[64];
    uint32_t fields[8];
    size_t i;
    memcpy(&written, &named, sizeof written);
    memset(result, 0xA5, sizeof result);
    written(result, text.now, text_size);
    memcpy(fields, result, sizeof fields);
    for (i = 0; i < 8; i++)
        CHECK(fields[i] == wanted[i]);
    for (i = sizeof fields; i < sizeof result; i++)
        CHECK(result[i] == 0xA5);
}

static void plans(void)
{
    static const uint32_t whole[8] = {0, 0, 3, 4, 2, 41, 0, 0};
    static const uint32_t unread[8] = {M7_NO_UNIT, 11, 0, 0, 0, 0, 0, 0};
    static const uint32_t unwritten[8] = {0, 0, 2, 1, 1, 0, M7_MACRO_TOO_LONG, 520};
    static const uint32_t nothing[8] = {0, 0, 0, 0, 0, 0, 0, 0};
    say("'^a*-b$'='';'{{c}}'='';#(v=1)'d'=':';");
    plan_bytes(whole);
    CHECK(measuring() == 0 && plan.macros == 3 && plan.elements == 4 && plan.tags == 2);
    CHECK(writing() == 0 && answer.length == plan.bytes && plan.bytes == 41);
    say("'a'='b';'c**'='';");
    plan_bytes(unread);
    CHECK(measuring() == M7_NO_UNIT && plan.place == 11);
    say("'q'='';'{a}'='");
    add(":", M7_MOST_MACRO_BYTES - 9);
    add("';", 1);
    plan_bytes(unwritten);
    CHECK(measuring() == 0 && plan.bytes == 0);
    CHECK(writing() == plan.write_number && answer.place == plan.write_place);
    none();
    plan_bytes(nothing);
    plan = m7_measure(NULL, 0);
    CHECK(plan.number == 0 && plan.macros == 0 && plan.bytes == 0);
    add("x", M7_FILE_BYTES + 1);
    CHECK(measuring() == M7_FILE_TOO_LONG && plan.place == M7_FILE_BYTES);
}

/* SIZES */

static void sizes(void)
{
    use("'a'='b';");
    CHECK(read_sized(M7_TABLE_BYTES - 1) == M7_BAD_MEMORY);
    CHECK(read_sized(M7_TABLE_BYTES + 1) == M7_BAD_MEMORY);
    CHECK(write_sized(M7_TABLE_BYTES - 1, M7_FILE_BYTES) == M7_BAD_MEMORY);
    CHECK(write_sized(M7_TABLE_BYTES + 1, M7_FILE_BYTES) == M7_BAD_MEMORY);
    CHECK(write_sized(M7_TABLE_BYTES, M7_FILE_BYTES - 1) == M7_BAD_MEMORY);
    CHECK(write_sized(M7_TABLE_BYTES, M7_FILE_BYTES + 1) == M7_BAD_MEMORY);
    CHECK(fresh_sized(M7_STATE_BYTES - 1) == M7_BAD_MEMORY);
    CHECK(fresh_sized(M7_STATE_BYTES + 1) == M7_BAD_MEMORY);
    CHECK(fresh_sized(M7_OLD_STATE_BYTES) == M7_BAD_MEMORY);
    say("'a'='b';");
    CHECK(recover_sized(M7_TABLE_BYTES - 1, M7_FAULTS_BYTES) == M7_BAD_MEMORY);
    CHECK(recover_sized(M7_TABLE_BYTES + 1, M7_FAULTS_BYTES) == M7_BAD_MEMORY);
    CHECK(recover_sized(M7_TABLE_BYTES, M7_FAULTS_BYTES - 1) == M7_BAD_MEMORY);
    CHECK(recover_sized(M7_TABLE_BYTES, M7_FAULTS_BYTES + 1) == M7_BAD_MEMORY);
    CHECK(feed_sized(M7_TABLE_BYTES - 1, M7_STATE_BYTES, M7_OUTPUT_BYTES,
                     M7_TRACE_BYTES, 9) == M7_BAD_MEMORY);
    CHECK(feed_sized(M7_TABLE_BYTES + 1, M7_STATE_BYTES, M7_OUTPUT_BYTES,
                     M7_TRACE_BYTES, 9) == M7_BAD_MEMORY);
    CHECK(feed_sized(M7_TABLE_BYTES, M7_STATE_BYTES - 1, M7_OUTPUT_BYTES,
                     M7_TRACE_BYTES, 9) == M7_BAD_MEMORY);
    CHECK(feed_sized(M7_TABLE_BYTES, M7_STATE_BYTES + 1, M7_OUTPUT_BYTES,
                     M7_TRACE_BYTES, 9) == M7_BAD_MEMORY);
    CHECK(feed_sized(M7_TABLE_BYTES, M7_OLD_STATE_BYTES, M7_OUTPUT_BYTES,
                     M7_TRACE_BYTES, 9) == M7_BAD_MEMORY);
    CHECK(feed_sized(M7_TABLE_BYTES, M7_STATE_BYTES, M7_OUTPUT_BYTES - 1,
                     M7_TRACE_BYTES, 9) == M7_BAD_MEMORY);
    CHECK(feed_sized(M7_TABLE_BYTES, M7_STATE_BYTES, M7_OUTPUT_BYTES + 1,
                     M7_TRACE_BYTES, 9) == M7_BAD_MEMORY);
    CHECK(feed_sized(M7_TABLE_BYTES, M7_STATE_BYTES, M7_OUTPUT_BYTES,
                     M7_TRACE_BYTES - 1, 9) == M7_BAD_MEMORY);
    CHECK(feed_sized(M7_TABLE_BYTES, M7_STATE_BYTES, M7_OUTPUT_BYTES,
                     M7_TRACE_BYTES + 1, 9) == M7_BAD_MEMORY);
    CHECK(reading() == 0 && writing() == 0 && fresh_sized(M7_STATE_BYTES) == 0);
    CHECK(feeding(9) == 0);
}

static void both_sizes(void)
{
    long less;
    CHECK(fresh_sized(M7_STATE_BYTES) == 0 && narrowing() == 0 && widening() == 0);
    for (less = -1; less < 2; less += 2) {
        size_t other_old = (size_t)(M7_OLD_STATE_BYTES - less);
        size_t other_state = (size_t)(M7_STATE_BYTES - less);
        CHECK(widen_sized(other_old, M7_STATE_BYTES) == M7_BAD_MEMORY);
        CHECK(widen_sized(M7_OLD_STATE_BYTES, other_state) == M7_BAD_MEMORY);
        CHECK(narrow_sized(other_state, M7_OLD_STATE_BYTES) == M7_BAD_MEMORY);
        CHECK(narrow_sized(M7_STATE_BYTES, other_old) == M7_BAD_MEMORY);
    }
    CHECK(widen_sized(M7_STATE_BYTES, M7_STATE_BYTES) == M7_BAD_MEMORY);
    CHECK(widen_sized(M7_OLD_STATE_BYTES, M7_OLD_STATE_BYTES) == M7_BAD_MEMORY);
    CHECK(narrow_sized(M7_STATE_BYTES, M7_STATE_BYTES) == M7_BAD_MEMORY);
    CHECK(narrow_sized(M7_OLD_STATE_BYTES, M7_OLD_STATE_BYTES) == M7_BAD_MEMORY);
}

/* A memory of no bytes may be null. */
static void nulls(void)
{
    answer = m7_read(NULL, 0, table.now, M7_TABLE_BYTES);
    CHECK(answer.number == 0 && answer.length == 0);
    answer = m7_read(NULL, 0, NULL, 0);
    CHECK(answer.number == M7_BAD_MEMORY);
    answer = m7_recover(NULL, 0, table.now, M7_TABLE_BYTES, faults.now, M7_FAULTS_BYTES);
    CHECK(answer.number == 0 && answer.length == 0);
    answer = m7_recover(NULL, 0, NULL, 0, NULL, 0);
    CHECK(answer.number == M7_BAD_MEMORY);
    answer = m7_write(NULL, 0, NULL, 0);
    CHECK(answer.number == M7_BAD_MEMORY);
    answer = m7_fresh(NULL, 0);
    CHECK(answer.number == M7_BAD_MEMORY);
    answer = m7_widen(NULL, 0, NULL, 0);
    CHECK(answer.number == M7_BAD_MEMORY);
    answer = m7_narrow(NULL, 0, NULL, 0);
    CHECK(answer.number == M7_BAD_MEMORY);
    answer = m7_feed(table.now, M7_TABLE_BYTES, state.now, M7_STATE_BYTES, NULL, 0, 9,
                     output.now, M7_OUTPUT_BYTES, trace.now, M7_TRACE_BYTES);
    CHECK(answer.number == 0 && answer.kind == M7_OUT && answer.length == 0);
}

static void nulls_of_words(void)
{
    const uint8_t *dash = (const uint8_t *)"-";
    answer = m7_words(NULL, 0, dash, 1);
    CHECK(answer.number == 0 && answer.place == 0 && answer.length == 0);
    answer = m7_words(dash, 1, NULL, 0);
    CHECK(answer.number == M7_BAD_WORD_PATTERN);
    answer = m7_words(NULL, 0, NULL, 0);
    CHECK(answer.number == M7_BAD_WORD_PATTERN);
}

/* LAYOUTS */

static void table_layout(void)
{
    static const uint8_t header[10] = {1, 1, 6, 0, 10, 0, 2, 0, 6, 0};
    size_t i;
    none();
    memset(table.now, 0xA5, M7_TABLE_BYTES);
    CHECK(reading() == 0 && answer.length == 0);
    for (i = 0; i < M7_TABLE_BYTES; i++)
        CHECK(table.now[i] == 0);
    use("'q'='r';#(v=1)'a{b}c'<'d'#(n=7);");
    CHECK(answer.length == 0 && table.now[0] == 2);
    CHECK(memcmp(table.now + 1024, header, sizeof header) == 0);
    for (i = 1024 + 10 + 24; i < M7_TABLE_BYTES; i++)
        CHECK(table.now[i] == 0);
}

/* The number in the four bytes of a memory at a place. */
static uint32_t four_in(const memory *m, size_t place)
{
    const uint8_t *at = m->now + place;
    return at[0] + 256u * at[1] + 65536u * at[2] + 16777216u * at[3];
}

static uint32_t four(size_t place) { return four_in(&state, place); }

static void state_layout(void)
{
    size_t values = 2 + M7_STACKS, increments = values + 4 * M7_STACKS, i;
    size_t entries = increments + 4 * M7_STACKS;
    use("'p'<'&(b=3)';'c'<'#(y=258)';'i'<'#(z,999999999)';'e'<'&(z=20)&(z:xy:)';");
    CHECK(state.now[0] == 0 && state.now[1] == 0);
    for (i = 2; i < values; i++)
        CHECK(state.now[i] == 1);
    for (i = values; i < entries; i += 4)
        CHECK(four(i) == 1);
    for (i = entries; i < M7_STATE_BYTES; i++)
        CHECK(state.now[i] == 0);
    CHECK(feed("$TRACE 1") == 0 && answer.kind == M7_CONTROL && state.now[0] == 1);
    CHECK(feed("$NFLAG 1") == 0 && answer.kind == M7_CONTROL && state.now[1] == 1);
    CHECK(feed("w") == 0 && answer.kind == M7_WITHHELD);
    CHECK(feed("p") == 0 && state.now[2 + 1] == 3);
    CHECK(feed("c") == 0 && four(values + 4 * 24) == 258);
    CHECK(feed("i") == 0 && four(increments + 4 * 25) == M7_MOST_COUNT);
    CHECK(feed("e") == 0 && state.now[2 + 25] == M7_MOST_ENTRIES);
    CHECK(memcmp(state.now + M7_STATE_BYTES - M7_MOST_ENTRY_BYTES, "xy", 3) == 0);
    entries += (size_t)M7_STACKS * M7_MOST_ENTRIES * M7_MOST_ENTRY_BYTES;
    CHECK(entries == M7_STATE_BYTES);
}

/* A state of the old size: the same fields, and entries of 50 bytes. */
static void old_layout(void)
{
    size_t entry = M7_STATE_ENTRIES + (size_t)M7_MOST_ENTRY_BYTES * 380, i;
    size_t old_entry = M7_STATE_ENTRIES + (size_t)M7_OLD_ENTRY_BYTES * 380;
    size_t entries = (size_t)M7_STACKS * M7_MOST_ENTRIES;
    CHECK(M7_STATE_ENTRIES + entries * M7_OLD_ENTRY_BYTES == M7_OLD_STATE_BYTES);
    use("'{a*}'<''&(1,t);'p'<'&(b=3)#(y=258)#(z,999999999)';");
    CHECK(feed("$TRACE 1") == 0 && feed("$NFLAG 1") == 0 && feed("p") == 0);
    none();
    add("a", M7_OLD_ENTRY_BYTES);
    CHECK(feeding(9) == 0 && state.now[entry + M7_OLD_ENTRY_BYTES - 1] == 'a');
    memcpy(file.now, state.now, M7_STATE_BYTES);
    memset(old.now, 7, sizeof old.now);
    CHECK(narrowing() == 0 && old.now[M7_OLD_STATE_BYTES] == 7);
    CHECK(memcmp(old.now, state.now, M7_STATE_ENTRIES) == 0);
    for (i = M7_STATE_ENTRIES; i < M7_OLD_STATE_BYTES; i++)
        CHECK(old.now[i] == (i - old_entry < M7_OLD_ENTRY_BYTES ? 'a' : 0));
    memset(state.now, 7, sizeof state.now);
    CHECK(widening() == 0 && state.now[M7_STATE_BYTES] == 7);
    CHECK(memcmp(state.now, file.now, M7_STATE_BYTES) == 0);
}

/* 3, then 2 over the whole state, then 42. */
static void states_refused(void)
{
    use("'{a*}'<''&(1,t);");
    CHECK(narrowing() == 0);
    none();
    add("a", M7_OLD_ENTRY_BYTES + 1);
    CHECK(feeding(9) == 0 && narrowing() == M7_LONG_ENTRY);
    CHECK(narrow_sized(M7_STATE_BYTES, M7_OLD_STATE_BYTES - 1) == M7_BAD_MEMORY);
    state.now[M7_STATE_BYTES - 1] = 'x';
    CHECK(narrowing() == M7_BAD_STATE);
    CHECK(narrow_sized(M7_STATE_BYTES, M7_OLD_STATE_BYTES - 1) == M7_BAD_MEMORY);
    state.now[M7_STATE_BYTES - 1] = 0;
    none();
    add("a", M7_MOST_ENTRY_BYTES);
    CHECK(feeding(9) == 0 && narrowing() == M7_LONG_ENTRY);
    CHECK(feed("a") == 0 && narrowing() == 0);
    old.now[M7_OLD_STATE_BYTES - 1] = 'x';
    CHECK(widening() == M7_BAD_STATE);
    CHECK(widen_sized(M7_OLD_STATE_BYTES, M7_STATE_BYTES - 1) == M7_BAD_MEMORY);
    old.now[M7_OLD_STATE_BYTES - 1] = 0;
    old.now[M7_STATE_TRACE] = 2;
    CHECK(widening() == M7_BAD_STATE);
    old.now[M7_STATE_TRACE] = 1;
    CHECK(widening() == 0 && state.now[M7_STATE_TRACE] == 1);
}

/* BOUNDS, each with its first byte too many */

static void line_bounds(void)
{
    use("'b'<'cc';");
    none();
    add("a", M7_MOST_LINE_BYTES);
    CHECK(feeding(1) == 0 && answer.length == M7_MOST_LINE_BYTES);
    CHECK(answer.length == M7_OUTPUT_BYTES && output.now[M7_OUTPUT_BYTES - 1] == 'a');
    add("a", 1);
    CHECK(feeding(1) == M7_LINE_TOO_LONG);
    none();
    add("b", M7_MOST_LINE_BYTES / 2);
    CHECK(feeding(1) == 0 && answer.length == M7_MOST_LINE_BYTES);
    add("b", 1);
    CHECK(feeding(1) == M7_NEW_LINE_TOO_LONG && answer.passes == 1);
    say("a");
    CHECK(feeding(M7_MOST_BUDGET) == 0 && answer.passes == 1);
    CHECK(output.now[0] == 'a' && output.now[1] == 0);
    CHECK(feeding(M7_MOST_BUDGET + 1) == M7_BUDGET_TOO_LARGE);
    CHECK(feeding(0) == M7_BUDGET_USED_UP && answer.passes == 0);
}

static void file_bounds(void)
{
    none();
    add("x", M7_FILE_BYTES);
    CHECK(reading() == 0);
    add("x", 1);
    CHECK(reading() == M7_FILE_TOO_LONG && answer.place == M7_FILE_BYTES);
    none();
    add("'a'='b';", M7_MOST_MACROS);
    CHECK(reading() == 0 && answer.length == M7_MOST_MACROS);
    CHECK(writing() == 0 && answer.length == 9 * M7_MOST_MACROS);
    CHECK(fresh_sized(M7_STATE_BYTES) == 0);
    add("'a'='b';", 1);
    CHECK(reading() == M7_TOO_MANY_MACROS && answer.place == 8 * M7_MOST_MACROS);
    CHECK(feed("$MACRO 'a'='b';") == M7_TOO_MANY_MACROS && answer.place == 1);
    say("'a'='");
    add("b", M7_MOST_MACRO_BYTES - 7);
    add("';", 1);
    CHECK(reading() == 0 && text_size == M7_MOST_MACRO_BYTES);
    say("'a'='");
    add("b", M7_MOST_MACRO_BYTES - 6);
    add("';", 1);
    CHECK(reading() == M7_MACRO_TOO_LONG && answer.place == M7_MOST_MACRO_BYTES);
}

static void tag_bounds(void)
{
    say("'");
    add("{}", M7_MOST_TAGS);
    add("a'='{99}';", 1);
    CHECK(reading() == 0);
    say("'");
    add("{}", M7_MOST_TAGS + 1);
    add("a'='';", 1);
    CHECK(reading() == M7_BAD_BRACE && answer.place == 1 + 2 * M7_MOST_TAGS);
}

/* A pointer, a counter and an increment that are set to their ends and past them. */
static void number_bounds(void)
{
    char macros[64];
    long past;
    for (past = 0; past < 2; past++) {
        uint32_t number = past ? M7_BAD_CALL : 0;
        sprintf(macros, "'a'='&(s=%ld)';", M7_MOST_ENTRIES + past);
        say(macros);
        CHECK(reading() == number);
        sprintf(macros, "'a'='#(n=%ld)';", M7_MOST_COUNT + past);
        say(macros);
        CHECK(reading() == number);
        sprintf(macros, "'a'='#(n,%ld)';", M7_MOST_COUNT + past);
        say(macros);
        CHECK(reading() == number);
        say("'a'='&(s:");
        add("x", (size_t)(M7_MOST_ENTRY_BYTES + past));
        add(":)';", 1);
        CHECK(reading() == number);
    }
}

/* Written files can be longer than read ones: a : is read as it is. */
static void written_bounds(void)
{
    say("'a'='");
    add(":", M7_MOST_MACRO_BYTES - 7);
    add("';", 1);
    CHECK(reading() == 0);
    CHECK(writing() == M7_MACRO_TOO_LONG && answer.place == M7_MOST_MACRO_BYTES);
    none();
    while (text_size + 253 <= M7_FILE_BYTES && text_size < (size_t)253 * 90) {
        add("'a'='", 1);
        add(":", 246);
        add("';", 1);
    }
    CHECK(reading() == 0 && answer.length == 90);
    CHECK(writing() == M7_FILE_TOO_LONG && answer.place == M7_FILE_BYTES);
}

/* FAULTS */

/* Whether the list has so many faults, with this number and place as the last, and
   zeros after it. */
static int lists(uint32_t count, uint32_t number, uint32_t place)
{
    size_t last = 8 * (size_t)count - 4, i;
    for (i = last + 8; i < M7_FAULTS_BYTES; i++)
        if (faults.now[i] != 0)
            return 0;
    return four_in(&faults, 0) == count && four_in(&faults, last) == number
           && four_in(&faults, last + 4) == place;
}

static void faults_listed(void)
{
    size_t i;
    memset(faults.now, 7, sizeof faults.now);
    memset(table.now, 7, sizeof table.now);
    say("'a'='b';'c='d';'e**'='';'f'='g';");
    CHECK(recovering() == 0 && answer.length == 2 && lists(2, M7_NO_UNIT, 18));
    CHECK(four_in(&faults, 4) == M7_INCOMPLETE && four_in(&faults, 8) == 13);
    CHECK(faults.now[M7_FAULTS_BYTES] == 7 && table.now[M7_TABLE_BYTES] == 7);
    CHECK(writing() == 0 && memcmp(file.now, "'a'='b';\n'f'='g';\n", 19) == 0);
    use("'a'='b';'c'='d';");
    memcpy(output.now, table.now, M7_TABLE_BYTES);
    say("'a'='b';'c'='d';");
    CHECK(recovering() == 0 && answer.length == 2);
    CHECK(memcmp(output.now, table.now, M7_TABLE_BYTES) == 0);
    for (i = 0; i < M7_FAULTS_BYTES; i++)
        CHECK(faults.now[i] == 0);
}

static void fault_bounds(void)
{
    none();
    add("'a;", M7_MOST_FAULTS);
    CHECK(recovering() == 0 && lists(M7_MOST_FAULTS, M7_INCOMPLETE, 3 * M7_MOST_FAULTS - 1));
    CHECK(4 + 8 * M7_MOST_FAULTS == M7_FAULTS_BYTES);
    add("'a;", 1);
    CHECK(recovering() == M7_TOO_MANY_FAULTS && answer.place == 0);
    say("'a**';");
    add("'a'='';", M7_MOST_MACROS);
    CHECK(recovering() == 0 && answer.length == M7_MOST_MACROS && lists(1, M7_NO_UNIT, 3));
    add("'", 1);
    CHECK(recovering() == M7_TOO_MANY_MACROS && answer.place == 6 + 7 * M7_MOST_MACROS);
    say("'a**'; ");
    text.now[6] = 0;
    CHECK(recovering() == M7_ZERO_BYTE && answer.place == 6);
    none();
    add("'", M7_FILE_BYTES + 1);
    CHECK(recovering() == M7_FILE_TOO_LONG && answer.place == M7_FILE_BYTES);
}

/* NUMBERS that have not come up */

static uint32_t reads(const char *macros, uint32_t place)
{
    say(macros);
    reading();
    CHECK(answer.place == place);
    return answer.number;
}

static void files_refused(void)
{
    use("'a'='b';");
    say("'a'='b'; ");
    text.now[8] = 0;
    CHECK(reading() == M7_ZERO_BYTE && answer.place == 8);
    CHECK(reads("'a'=", 4) == M7_INCOMPLETE);
    CHECK(reads("'[z-a]'='b';", 4) == M7_BAD_CLASS);
    CHECK(reads("'a**'='b';", 3) == M7_NO_UNIT);
    CHECK(reads("'a}'='b';", 2) == M7_BAD_BRACE);
    CHECK(reads("'a'='{2}';", 7) == M7_BAD_CALL);
    CHECK(reads("''='b';", 1) == M7_NO_ELEMENT);
}

static void lines_refused(void)
{
    use("'{a*}'<'b'&(1,t);'c'<'&(s=20)&(+s)';'d'<'#(n=999999999)#(+n)';'l'='l';");
    CHECK(feed("a\na") == M7_BAD_BYTE);
    text.now[1] = 0;
    CHECK(feeding(9) == M7_BAD_BYTE);
    CHECK(feed("$FOO") == M7_BAD_CONTROL && answer.place == 0 && answer.passes == 0);
    CHECK(feed("l") == M7_BUDGET_USED_UP && answer.passes == 10000);
    none();
    add("a", M7_MOST_ENTRY_BYTES);
    CHECK(feeding(9) == 0);
    add("a", 1);
    CHECK(feeding(9) == M7_TAG_TOO_LONG);
    CHECK(feed("c") == M7_POINTER_TOO_HIGH);
    CHECK(feed("d") == M7_COUNTER_TOO_HIGH);
}

/* The example of the header; 30 passes of a full line take 2,136 bytes each. */
static void traces(void)
{
    static const char wanted[] = "oldline:my colour\nmacro #:1\nnewline:my color\n";
    size_t i;
    use("'colour'<'color';'a'='a';");
    CHECK(feed("my colour") == 0);
    CHECK(same(&trace));
    memset(trace.now, 7, sizeof trace.now);
    state.now[M7_STATE_TRACE] = 1;
    CHECK(feed("my colour") == 0 && memcmp(trace.now, wanted, sizeof wanted - 1) == 0);
    for (i = sizeof wanted - 1; i < M7_TRACE_BYTES; i++)
        CHECK(trace.now[i] == 0);
    CHECK(trace.now[M7_TRACE_BYTES] == 7);
    none();
    add("a", M7_MOST_LINE_BYTES);
    CHECK(feeding(30) == M7_BUDGET_USED_UP);
    CHECK(feeding(31) == M7_TRACE_TOO_LONG && answer.passes == 31);
    CHECK(feed("$TRACE 0") == 0 && trace.now[0] == 0);
    memset(trace.now, 7, sizeof trace.now);
    CHECK(feed("$TRACE 1") == 0 && trace.now[0] == 7);
}

static void memories_refused(void)
{
    use("'a'='b';");
    table.now[0] = 3;
    CHECK(writing() == M7_BAD_TABLE && feed("a") == M7_BAD_TABLE);
    state.now[0] = 2;
    CHECK(feed("a") == M7_BAD_TABLE);
    table.now[0] = 2;
    CHECK(feed("a") == M7_BAD_STATE);
    CHECK(feeding(M7_MOST_BUDGET + 1) == M7_BAD_STATE);
    state.now[0] = 0;
    CHECK(feeding(M7_MOST_BUDGET + 1) == M7_BUDGET_TOO_LARGE && feed("a") == 0);
}

/* WORDS */

/* Whether so many words are covered, the first of them at the place. */
static int finds(const char *line, const char *pattern, uint32_t words, uint32_t place)
{
    say(line);
    return looking(pattern) == 0 && answer.length == words && answer.place == place;
}

static void words_found(void)
{
    CHECK(finds("CAT CART, CATARACT", "CA-T", 3, 0));
    CHECK(finds("SCAT CATS +CART+", "CA-T", 1, 11));
    CHECK(finds("SCAT CATS cat", "CA-T", 0, 0));
    CHECK(finds("a DIGGING", "D-G", 1, 2));
    CHECK(finds("", "-", 0, 0));
    none();
    add(" A", M7_MOST_LINE_BYTES / 2);
    CHECK(text_size == M7_MOST_LINE_BYTES && looking("-A-") == 0);
    CHECK(answer.length == M7_MOST_LINE_BYTES / 2 && answer.place == 1);
}

/* 21 comes before 22, and both before 41. */
static void words_refused(void)
{
    none();
    add("A", M7_MOST_LINE_BYTES + 1);
    CHECK(looking("-") == M7_LINE_TOO_LONG && looking("") == M7_LINE_TOO_LONG);
    text.now[1] = 0;
    CHECK(looking("A--") == M7_LINE_TOO_LONG);
    say("A\nA");
    CHECK(looking("-") == M7_BAD_BYTE && looking("A--") == M7_BAD_BYTE);
    text.now[1] = 0;
    CHECK(looking("-") == M7_BAD_BYTE && looking("") == M7_BAD_BYTE);
    say("A A");
    CHECK(looking("") == M7_BAD_WORD_PATTERN && answer.place == 0);
    CHECK(looking("A--") == M7_BAD_WORD_PATTERN && answer.place == 0);
    CHECK(looking("A A") == M7_BAD_WORD_PATTERN && answer.place == 0);
    CHECK(looking("-A-") == 0 && answer.length == 2 && answer.place == 0);
}

/* What is not part of the engine: version, meanings, sizes. */
static void meanings(void)
{
    const char *unknown = m7_meaning(64);
    uint32_t number;
    CHECK(strcmp(m7_version(), M7_VERSION) == 0);
    CHECK(strcmp(m7_meaning(0), "taken") == 0 && strcmp(unknown, m7_meaning(0xFFFFFFFFu)) == 0);
    for (number = 0; number < 64; number++)
        CHECK((strcmp(m7_meaning(number), unknown) != 0) == (seen[number] != 0));
    CHECK(m7_table_bytes() == M7_TABLE_BYTES && m7_state_bytes() == M7_STATE_BYTES);
    CHECK(m7_output_bytes() == M7_OUTPUT_BYTES && m7_trace_bytes() == M7_TRACE_BYTES);
    CHECK(m7_file_bytes() == M7_FILE_BYTES && m7_faults_bytes() == M7_FAULTS_BYTES);
    CHECK(m7_old_state_bytes() == M7_OLD_STATE_BYTES);
}

/* The numbers that the header names, and no others, have come up. */
static void all_seen(void)
{
    static const int named[] = {
        0, M7_BAD_TABLE, M7_BAD_STATE, M7_BAD_MEMORY, M7_BUDGET_TOO_LARGE,
        M7_FILE_TOO_LONG, M7_ZERO_BYTE, M7_INCOMPLETE, M7_BAD_CLASS, M7_NO_UNIT,
        M7_BAD_BRACE, M7_BAD_CALL, M7_NO_ELEMENT, M7_MACRO_TOO_LONG, M7_TOO_MANY_MACROS,
        M7_LINE_TOO_LONG, M7_BAD_BYTE, M7_BAD_CONTROL, M7_BUDGET_USED_UP,
        M7_NEW_LINE_TOO_LONG, M7_TAG_TOO_LONG, M7_POINTER_TOO_HIGH, M7_COUNTER_TOO_HIGH,
        M7_TRACE_TOO_LONG, M7_BAD_WORD_PATTERN, M7_LONG_ENTRY, M7_TOO_MANY_FAULTS};
    size_t count = sizeof named / sizeof named[0], i;
    for (i = 0; i < count; i++) {
        CHECK(seen[named[i]]);
        seen[named[i]] = 0;
    }
    for (i = 0; i < sizeof seen / sizeof seen[0]; i++)
        CHECK(!seen[i]);
    CHECK(count == 27);
}

int main(void)
{
    answers();
    plans();
    sizes();
    both_sizes();
    nulls();
    nulls_of_words();
    table_layout();
    state_layout();
    old_layout();
    line_bounds();
    file_bounds();
    tag_bounds();
    number_bounds();
    written_bounds();
    faults_listed();
    fault_bounds();
    files_refused();
    lines_refused();
    traces();
    memories_refused();
    states_refused();
    words_found();
    words_refused();
    meanings();
    all_seen();
    printf("%d checks hold\n", checks);
    return 0;
}
