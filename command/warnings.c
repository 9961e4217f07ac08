/* What reads without a fault but is seldom meant: in a file that is taken, or
   before a macro with a fault, which may come from there. */
#include "command.h"
#include <string.h>

enum { SLOT_BYTES = M7_TABLE_BYTES / M7_MOST_MACROS };

static struct scan scan;

/* Why ignored text that holds this letter is seldom meant; NULL if it may be. */
static const char *ignored_letter(uint32_t point)
{
    if (point == '&' || point == '#')
        return "warning: ignored: a call is &(..) or #(..) before the pattern or after the "
               "replacement, without a space before its (";
    if (quote_like(point))
        return "warning: ignored: only ' is a quote";
    if (point >= '0' && point <= '9')
        return "warning: ignored text with a digit: a comment stands between two /, and the first "
               "/ in it ends it";
    return NULL;
}

/* Of an ignored text: the first letter in it that is seldom meant. */
static size_t warn_ignored(FILE *out, const struct table *table, const struct part *part)
{
    for (size_t i = part->from; i < part->to;) {
        uint32_t point;
        size_t length = letter_at(table->file + i, part->to - i, &point);
        const char *why = ignored_letter(length == 0 ? table->file[i] : point);
        if (why != NULL) {
            show_place(out, table, i, why);
            return 1;
        }
        i += length == 0 ? 1 : length;
    }
    return 0;
}

/* Whether the bytes hold more than spaces and line ends. */
static int has_words(const struct table *table, size_t from, size_t to)
{
    while (from < to && memchr(" \t\r\n", table->file[from], 4) != NULL)
        from++;
    return from < to;
}

/* Whether ignored text with more than spaces stands before the macro, in its line. */
static int words_before(const struct table *table, const struct part *macro)
{
    size_t line = place_of(table->file, table->size, macro->from).from;
    if (macro == scan.parts || macro[-1].kind != IGNORED)
        return 0;
    return has_words(table, macro[-1].from > line ? macro[-1].from : line, macro[-1].to);
}

/* Of a macro that begins with a call: other text stands before that call, or between
   it and the pattern. */
static size_t warn_call(FILE *out, const struct table *table, const struct part *macro)
{
    int words = words_before(table, macro);
    if (table->file[macro->from] == '\'') /* it begins with its pattern */
        return 0;
    for (const struct part *part = macro; part->kind != PATTERN; part++)
        words |= part->kind == IGNORED && has_words(table, part->from, part->to);
    if (words)
        show_place(out, table, macro->from,
                   "warning: a call before a pattern with other text beside it: it runs when a line first "
                   "tries the macro; a comment stands between two /");
    return (size_t)words;
}

static size_t warn_skip(FILE *out, const struct table *table, const struct part *part)
{
    const uint8_t *from = table->file + part->from;
    int quote = memchr(from, '\'', part->to - part->from) != NULL;
    int feed = memchr(from, '\n', part->to - part->from) != NULL;
    if (part->open || (!quote && !feed))
        return 0;
    show_place(out, table, part->from,
               quote && feed ? "warning: this skip holds a quote and a line feed, up to its next /"
               : quote ? "warning: this skip holds a quote, up to its next /"
               : "warning: this skip holds a line feed, up to its next /");
    return 1;
}

static size_t warn_class(FILE *out, const struct table *table, const struct part *part)
{
    for (size_t i = part->from; i < part->to; i++) {
        if (table->file[i] > 127) {
            show_place(out, table, i,
                       "warning: a byte over 127 in a class: members are single bytes, and a letter "
                       "of two bytes is two members");
            return 1;
        }
    }
    return 0;
}

/* The number of the newest macro before this one that is the same, from 0;
   the number itself if there is none. */
static size_t same_before(const struct table *table, size_t number)
{
    const uint8_t *slot = table->macros + SLOT_BYTES * number;
    for (size_t i = number; i > 0; i--)
        if (memcmp(table->macros + SLOT_BYTES * (i - 1), slot, SLOT_BYTES) == 0)
            return i - 1;
    return number;
}

/* Of the macro with that number, whose parts begin in `starts`. */
static size_t warn_macro(FILE *out, const struct table *table, size_t number, const size_t *starts)
{
    size_t same = table->answer.number == 0 ? same_before(table, number) : number;
    char kind[128];
    if (same == number)
        return 0;
    snprintf(kind, sizeof kind,
             "warning: the same macro as in line %zu, which is tried after this one",
             place_of(table->file, table->size, starts[same]).line);
    show_place(out, table, starts[number], kind);
    return 1;
}

size_t show_warnings(FILE *out, const struct table *table)
{
    size_t starts[M7_MOST_MACROS], macros = 0, warnings = 0;
    scan_file(&scan, table->file, table->from,
              table->answer.number == 0 ? table->size : table->answer.place);
    for (size_t i = 0; i < scan.count; i++) {
        const struct part *part = &scan.parts[i];
        if (part->kind == MACRO && part->open)
            break;
        if (part->kind == IGNORED) {
            warnings += warn_ignored(out, table, part);
        } else if (part->kind == SKIP) {
            warnings += warn_skip(out, table, part);
        } else if (part->kind == CLASS) {
            warnings += warn_class(out, table, part);
        } else if (part->kind == MACRO && macros < M7_MOST_MACROS) {
            starts[macros] = part->from;
            warnings += warn_call(out, table, part);
            warnings += warn_macro(out, table, macros++, starts);
        }
    }
    return warnings;
}
