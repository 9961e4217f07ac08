/* Macro files: loaded and read, and why one was refused. */
#include "command.h"
#include <string.h>

static struct scan scan;

int load_table(const char *name, struct table *table)
{
    table->name = shown_name(name);
    if (!load(name, "name a macro file that can be read", table->file, sizeof table->file,
              &table->size))
        return WRONG;
    table->answer = m7_read(table->file, table->size, table->macros, sizeof table->macros);
    table->from = 0;
    return table->answer.number == 0 ? FINE : REFUSED;
}

size_t macro_start(const struct table *table, size_t number)
{
    scan_file(&scan, table->file, 0, table->size);
    for (size_t i = 0; i < scan.count; i++)
        if (scan.parts[i].kind == MACRO && number-- == 0)
            return scan.parts[i].from;
    return table->size;
}

static void show_head(FILE *out, const struct table *table, size_t at)
{
    struct place place = place_of(table->file, table->size, at);
    fprintf(out, "%s:%zu:%zu: ", table->name, place.line, place.column);
}

void show_place(FILE *out, const struct table *table, size_t at, const char *kind)
{
    show_head(out, table, at);
    fprintf(out, "%s\n", kind);
    show_line(out, table->file, table->size, at);
}

/* The last part that is open, of the kinds in question; NULL if there is none. */
static const struct part *last_open(int is_brace)
{
    for (size_t i = scan.count; i > 0; i--) {
        const struct part *part = &scan.parts[i - 1];
        if (part->open && (part->kind == BRACE) == is_brace)
            return part;
    }
    return NULL;
}

static const struct part *open_macro(void)
{
    for (size_t i = scan.count; i > 0; i--)
        if (scan.parts[i - 1].kind == MACRO)
            return scan.parts[i - 1].open ? &scan.parts[i - 1] : NULL;
    return NULL;
}

/* Whether the last macro began with a call, and its pattern has not begun. */
static int before_pattern(void) { return open_macro() != NULL && scan.lacks == LACKS_PATTERN; }

static const char *what_lacks(enum part_kind kind)
{
    switch (kind) {
    case SKIP: return "this skip lacks its second /";
    case PATTERN: return "this pattern lacks its closing quote";
    case REPLACEMENT: return "this replacement lacks its closing quote";
    case CLASS: return "this class lacks its ]";
    case TAG_NUMBER: return "this {n} lacks its }";
    case CALL: return "this call lacks its )";
    case CALL_TEXT: return "this call's text lacks its second :";
    default:
        return scan.lacks == LACKS_PATTERN ? "this call begins a macro, which lacks its pattern in quotes"
               : scan.lacks == LACKS_SYMBOL ? "this macro lacks its symbol, = or <"
               : scan.lacks == LACKS_REPLACEMENT ? "this macro lacks its replacement in quotes"
               : "this macro lacks its ;";
    }
}

static int same_line(const struct table *table, size_t one, size_t other)
{
    return place_of(table->file, table->size, one).line
           == place_of(table->file, table->size, other).line;
}

/* What to write if the byte where 12 shows is meant as it stands, or if no call is
   meant before a pattern. */
static const char *meant(const struct table *table, const struct part *open)
{
    size_t at = table->answer.place;
    if (before_pattern() && (open->kind == MACRO || open->kind == CALL))
        return " (a comment stands between two /)";
    if (at >= table->size || open->kind == CALL || open->kind == TAG_NUMBER)
        return "";
    if (open->kind == MACRO && (table->file[at] != '\'' || !same_line(table, open->from, at)))
        return "";
    if (table->file[at] == '\'')
        return " (inside quotes, a quote is written \\')";
    return table->file[at] == ';' ? " (inside quotes, a ; is written \\;)"
                                  : " (inside quotes, a line feed is written \\n)";
}

/* Of a 12: the part that is open, and its macro if that begins on another line. */
static void show_open(FILE *out, const struct table *table)
{
    const struct part *open = last_open(0), *macro = open_macro();
    char note[128];
    if (open == NULL)
        return;
    snprintf(note, sizeof note, "note: %s%s", what_lacks(open->kind), meant(table, open));
    show_place(out, table, open->from, note);
    if (macro != NULL && !same_line(table, macro->from, open->from))
        show_place(out, table, macro->from, "note: the macro begins here");
}

/* Of a 16 in a call: the forms that may stand there. */
static const char *call_forms(const struct table *table, const struct part *call)
{
    int is_stack = table->file[call->from] == '&', quoted = 0;
    if (before_pattern())
        return is_stack ? "note: before a pattern a stack call is &(i=n) or &(i:text:); a comment "
                          "stands between two /"
                        : "note: before a pattern a counter call is #(i=n) or #(i,n); a comment "
                          "stands between two /";
    for (const struct part *part = scan.parts; part < call; part++) {
        if (part->open && part->kind == PATTERN)
            return is_stack ? "note: in a pattern a stack call is &(i), i a letter from a to z"
                            : "note: in a pattern a counter call is #(i), i a letter from a to z";
        quoted |= part->open && part->kind == REPLACEMENT;
    }
    if (quoted)
        return is_stack ? "note: a stack call here is &(i), &(n,i), &(i=n) or &(i:text:)"
                        : "note: a counter call here is #(i), #(i=n), #(i,n) or #(i:n)";
    return is_stack ? "note: a command on a stack is &(n,i), &(i=n) or &(i:text:)"
                    : "note: a command on a counter is #(i=n) or #(i,n)";
}

/* How many tags the pattern of the last macro has. */
static size_t tags(void)
{
    size_t count = 0;
    for (size_t i = scan.count; i > 0 && scan.parts[i - 1].kind != MACRO; i--)
        count += scan.parts[i - 1].kind == BRACE;
    return count;
}

/* Whether a 16 shows at the ) of &(n,i). */
static int stores_tag(const struct table *table, const struct part *call)
{
    size_t at = table->answer.place;
    return !before_pattern() && table->file[at] == ')' && table->file[call->from] == '&'
           && memchr(table->file + call->from, ',', at - call->from) != NULL;
}

/* Of a 16: what may stand there. */
static void show_call(FILE *out, const struct table *table)
{
    const struct part *open = last_open(0);
    char note[128];
    if (open == NULL)
        return;
    if (open->kind == CALL_TEXT)
        snprintf(note, sizeof note, "note: the text of a call has at most %d bytes",
                 M7_MOST_ENTRY_BYTES);
    else if (open->kind == TAG_NUMBER || (open->kind == CALL && stores_tag(table, open)))
        snprintf(note, sizeof note, "note: n names a tag of the pattern, which has %zu", tags());
    else
        snprintf(note, sizeof note, "%s", call_forms(table, open));
    show_place(out, table, open->from, note);
}

/* Of a 13: what a class has to be. */
static void show_class(FILE *out, const struct table *table)
{
    const struct part *class = last_open(0);
    const uint8_t *at = table->file + table->answer.place;
    if (class != NULL)
        show_place(out, table, class->from,
                   at[0] == ']' && at[-1] != '\\'
                       ? "note: this class has no member"
                       : "note: a range in a class goes up within a-z, A-Z or 0-9");
}

/* What a fault has to do with, by its number. */
static void show_notes(FILE *out, const struct table *table)
{
    const struct part *brace = last_open(1);
    size_t at = table->answer.place;
    switch (table->answer.number) {
    case M7_INCOMPLETE:
        show_open(out, table);
        show_warnings(out, table);
        break;
    case M7_BAD_CLASS:
        show_class(out, table);
        break;
    case M7_BAD_BRACE:
        if (brace != NULL && table->file[at] == '\'')
            show_place(out, table, brace->from, "note: this brace is open");
        break;
    case M7_BAD_CALL:
        show_call(out, table);
        break;
    case M7_MACRO_TOO_LONG: /* at its 513th byte */
        show_place(out, table, at - M7_MOST_MACRO_BYTES, "note: the macro begins here");
        break;
    default:
        break;
    }
}

void show_fault(FILE *out, const struct table *table)
{
    uint32_t number = table->answer.number;
    show_head(out, table, table->answer.place);
    fprintf(out, "%u: %s\n", (unsigned)number, m7_meaning(number));
    show_line(out, table->file, table->size, table->answer.place);
    scan_file(&scan, table->file, table->from, table->answer.place);
    show_notes(out, table);
}

void show_first(FILE *out, const struct table *table)
{
    show_fault(out, table);
    fprintf(out, "m7 explain %u says more\n", (unsigned)table->answer.number);
}
