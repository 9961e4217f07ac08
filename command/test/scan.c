/* Holds scan.c against the engine, on generated macro files.

   Of a file that is taken: there are as many parts of the kind MACRO as macros;
   each alone reads as its macro; and the file without its skips and ignored
   texts reads as the same table. Of a file that is refused with 12: with an end
   put to each open part, 12 no longer shows.

       scan SEED FILES */
#include "../command.h"
#include <stdlib.h>
#include <string.h>

enum { SLOT_BYTES = M7_TABLE_BYTES / M7_MOST_MACROS, MOST = 4096 };

static uint64_t seed;
static struct scan scan;
static uint8_t table[M7_TABLE_BYTES], other[M7_TABLE_BYTES];
static uint8_t file[MOST], made[2 * MOST];
static size_t size, made_size;

static void fail(const char *what)
{
    printf("scan: %s, of the file\n%.*s\n", what, (int)size, (const char *)file);
    exit(1);
}

static uint32_t below(uint32_t bound)
{
    seed = seed * 6364136223846793005u + 1442695040888963407u;
    return (uint32_t)(seed >> 33) % bound;
}

static void put(const char *text)
{
    size_t length = strlen(text);
    memcpy(file + size, text, length);
    size += length;
}

/* One of the texts, and now and then a skip after it. */
static void put_one(const char *const *texts, uint32_t count)
{
    static const char *const skips[] = {"/x/", "//", "/'/", "/;\n/", "/a//b/", "/[/", "/\\/"};
    put(texts[below(count)]);
    if (below(6) == 0)
        put(skips[below(7)]);
}

static void put_some(const char *const *texts, uint32_t count, uint32_t most)
{
    for (uint32_t i = below(most); i > 0; i--)
        put_one(texts, count);
}

#define SOME(texts, most) put_some(texts, sizeof(texts) / sizeof(texts)[0], most)

static void put_macro(void)
{
    static const char *const before[] = {
        " ", "\n", ";", "#(a=1)", "&/x/(+b:\\':)", "#(c,2)", "&(d:/:/x\\::)", "& (", "#", "x", "=", "]", "\\", "\""};
    static const char *const pattern[] = {
        "a", "b*", "?1", "[ab]", "[~a-z']*-", "[a/]", "[\\]']", "[\\']*", "^", "&(a)", "#/x/(b)*", "{a}", "{b{c}",
        "}", "\\'", "\\/", "\\\\", "&", "#", "(", "[\\\\]", "*/x/-"};
    static const char *const between[] = {" ", "\n", "&(", "x", "\\", "]", ")", "#(a:", "{"};
    static const char *const replacement[] = {
        "a", "[", "&(a)", "&(a:\\::)", "&(a:/:/x:)", "&/y/(1,a)", "#(b+)", "{1}", "\\'", "\\;", "\\/", "&", "=", "~"};
    static const char *const commands[] = {
        " ", "&(1,a)", "&(a:x\\\\:)", "#(b=1)", "& (", "&", "#/z/(c,2)", "x", "\\", "[", "=", "\n", "&(b:\\':)"};
    SOME(before, 4);
    put("'a");
    SOME(pattern, 6);
    put("'");
    SOME(between, 3);
    put(below(2) ? "=" : "<");
    SOME(between, 3);
    put("'");
    SOME(replacement, 6);
    put("'");
    SOME(commands, 4);
    put(";");
}

/* Takes a byte out, puts one in, or changes one. */
static void damage(void)
{
    static const char bytes[] = "';/[]\\&(){}:=<\n*a";
    size_t at = below((uint32_t)size);
    uint32_t how = below(3);
    if (how == 0) {
        memmove(file + at, file + at + 1, size - at - 1);
        size--;
        return;
    }
    if (how == 1) {
        memmove(file + at + 1, file + at, size - at);
        size++;
    }
    file[at] = (uint8_t)bytes[below(sizeof bytes - 1)];
}

static void each_alone(uint32_t macros)
{
    uint32_t found = 0;
    for (size_t i = 0; i < scan.count; i++) {
        const struct part *part = &scan.parts[i];
        if (part->kind != MACRO)
            continue;
        if (part->open || m7_read(file + part->from, part->to - part->from, other, sizeof other).length != 1)
            fail("a part is not a macro");
        if (memcmp(other, table + SLOT_BYTES * found++, SLOT_BYTES) != 0)
            fail("a part is another macro");
    }
    if (found != macros)
        fail("another number of macros");
}

static void without_ignored(void)
{
    size_t kept = 0;
    memcpy(made, file, size);
    for (size_t i = 0; i < scan.count; i++)
        if (scan.parts[i].kind == SKIP || scan.parts[i].kind == IGNORED)
            memset(made + scan.parts[i].from, 0, scan.parts[i].to - scan.parts[i].from);
    for (size_t i = 0; i < size; i++)
        if (made[i] != 0)
            made[kept++] = made[i];
    if (m7_read(made, kept, other, sizeof other).number != 0 || memcmp(table, other, sizeof table) != 0)
        fail("without skips and ignored text it is another table");
}

static const char *end_of(const struct part *part)
{
    static const char *const rest[] = {"'a'='';", "='';", "'';", ";"};
    switch (part->kind) {
    case SKIP: return "/";
    case CLASS: return "]";
    case BRACE:
    case TAG_NUMBER: return "}";
    case CALL: return ")";
    case CALL_TEXT: return ":";
    case MACRO: return rest[scan.lacks];
    default: return "'";
    }
}

static void with_ends(size_t at)
{
    m7_answer answer;
    memcpy(made, file, at);
    made_size = at;
    if (at > 0 && made[at - 1] == '\\')
        made[made_size++] = 'x';
    for (size_t i = scan.count; i > 0; i--) {
        if (scan.parts[i - 1].open) {
            const char *end = end_of(&scan.parts[i - 1]);
            memcpy(made + made_size, end, strlen(end));
            made_size += strlen(end);
        }
    }
    answer = m7_read(made, made_size, other, sizeof other);
    if (answer.number == M7_INCOMPLETE)
        fail("with its parts ended it is 12 again");
}

int main(int count, char **words)
{
    long files = count == 3 ? atol(words[2]) : 0, taken = 0, incomplete = 0;
    seed = count == 3 ? (uint64_t)atol(words[1]) : 0;
    for (long i = 0; i < files; i++) {
        m7_answer answer;
        size = 0;
        for (uint32_t macros = below(4); macros > 0; macros--)
            put_macro();
        for (uint32_t damages = size == 0 ? 0 : below(4); damages > 1; damages--)
            damage();
        answer = m7_read(file, size, table, sizeof table);
        scan_file(&scan, file, 0, answer.number == 0 ? size : answer.place);
        if (answer.number == 0) {
            taken++;
            each_alone(answer.length);
            without_ignored();
        } else if (answer.number == M7_INCOMPLETE) {
            incomplete++;
            with_ends(answer.place);
        }
    }
    printf("scan.c agrees with the engine on %ld files: %ld taken, %ld refused with 12\n", files, taken, incomplete);
    return taken > 0 && incomplete > 0 ? 0 : 1;
}
