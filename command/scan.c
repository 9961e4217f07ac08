/* The parts of a macro file: where its macros, quoted texts, classes, calls,
   skips and ignored texts stand. It judges nothing: reading has found no fault
   in the bytes that are looked at. */
#include "command.h"
#include <string.h>

static int more(const struct scan *s) { return s->at < s->size; }

static uint8_t here(const struct scan *s) { return s->file[s->at]; }

static void step(struct scan *s)
{
    if (more(s))
        s->at++;
}

/* A part begins here; it is open until `ended`. */
static struct part *begin(struct scan *s, enum part_kind kind)
{
    struct part *part = &s->parts[s->count++];
    part->kind = kind;
    part->open = 1;
    part->from = s->at;
    part->to = s->size;
    return part;
}

/* The last byte of a part stands before this one. */
static void ended(const struct scan *s, struct part *part)
{
    part->open = 0;
    part->to = s->at;
}

/* Steps over skips, each from a / to the next. */
static void skips(struct scan *s)
{
    while (more(s) && here(s) == '/') {
        struct part *skip = begin(s, SKIP);
        do
            s->at++;
        while (more(s) && here(s) != '/');
        if (!more(s))
            return;
        s->at++;
        ended(s, skip);
    }
}

/* Whether a call begins here: & or #, perhaps skips, and (. */
static int at_call(const struct scan *s)
{
    size_t i = s->at + 1;
    if (here(s) != '&' && here(s) != '#')
        return 0;
    while (i < s->size && s->file[i] == '/') {
        for (i++; i < s->size && s->file[i] != '/'; i++)
            ;
        i++;
    }
    return i < s->size && s->file[i] == '(';
}

/* From the : of a call to the next one without \. */
static void call_text(struct scan *s)
{
    struct part *text = begin(s, CALL_TEXT);
    step(s);
    for (skips(s); more(s); skips(s)) {
        uint8_t byte = here(s);
        step(s);
        if (byte == '\\') {
            step(s);
        } else if (byte == ':') {
            ended(s, text);
            return;
        }
    }
}

static void call(struct scan *s)
{
    struct part *part = begin(s, CALL);
    int has_text = here(s) == '&';
    step(s);
    for (skips(s); more(s); skips(s)) {
        if (has_text && here(s) == ':') {
            call_text(s);
        } else if (here(s) == ')') {
            step(s);
            ended(s, part);
            return;
        } else {
            step(s);
        }
    }
}

/* No skips in a class. */
static void class(struct scan *s)
{
    struct part *part = begin(s, CLASS);
    for (step(s); more(s); step(s)) {
        if (here(s) == '\\') {
            step(s);
        } else if (here(s) == ']') {
            step(s);
            ended(s, part);
            return;
        }
    }
}

/* A right brace ends the tag that was opened last. */
static void close_brace(struct scan *s)
{
    step(s);
    for (size_t i = s->count; i > 0; i--) {
        struct part *part = &s->parts[i - 1];
        if (part->kind == BRACE && part->open) {
            ended(s, part);
            return;
        }
    }
}

/* {n} in a replacement. */
static void tag_number(struct scan *s)
{
    struct part *part = begin(s, TAG_NUMBER);
    step(s);
    for (skips(s); more(s); skips(s)) {
        step(s);
        if (s->file[s->at - 1] == '}') {
            ended(s, part);
            return;
        }
    }
}

/* What stands at one byte of a quoted text. */
static void quoted_piece(struct scan *s, enum part_kind kind)
{
    if (at_call(s)) {
        call(s);
    } else if (here(s) == '\\') {
        step(s);
        step(s);
    } else if (kind == PATTERN && here(s) == '[') {
        class(s);
    } else if (kind == PATTERN && here(s) == '}') {
        close_brace(s);
    } else if (kind == REPLACEMENT && here(s) == '{') {
        tag_number(s);
    } else {
        if (kind == PATTERN && here(s) == '{')
            begin(s, BRACE);
        step(s);
    }
}

/* A pattern or replacement, from quote to quote; 0 if it is not ended. */
static int quoted(struct scan *s, enum part_kind kind)
{
    struct part *part = begin(s, kind);
    step(s);
    for (skips(s); more(s) && here(s) != '\''; skips(s))
        quoted_piece(s, kind);
    if (!more(s))
        return 0;
    step(s);
    ended(s, part);
    return 1;
}

/* Steps over ignored text and skips up to one of the bytes `until` or, where calls
   count, to a call; 0 if there is none. */
static int find(struct scan *s, const char *until, int calls)
{
    struct part *ignored = NULL;
    while (more(s) && memchr(until, here(s), strlen(until)) == NULL && !(calls && at_call(s))) {
        if (here(s) == '/') {
            ignored = NULL;
            skips(s);
            continue;
        }
        ignored = ignored == NULL ? begin(s, IGNORED) : ignored;
        step(s);
        ended(s, ignored);
    }
    return more(s);
}

/* The same, over calls, up to the byte `until`. */
static int find_after_calls(struct scan *s, const char *until)
{
    while (find(s, until, 1)) {
        if (!at_call(s))
            return 1;
        call(s);
    }
    return 0;
}

/* From its first quote, or from the first call before its pattern. */
static void macro(struct scan *s)
{
    struct part *part = begin(s, MACRO);
    s->lacks = LACKS_PATTERN;
    if (!find_after_calls(s, "'"))
        return;
    s->lacks = LACKS_SYMBOL;
    if (!quoted(s, PATTERN) || !find(s, "=<", 0))
        return;
    step(s);
    s->lacks = LACKS_REPLACEMENT;
    if (!find(s, "'", 0))
        return;
    s->lacks = LACKS_END;
    if (!quoted(s, REPLACEMENT) || !find_after_calls(s, ";"))
        return;
    step(s);
    ended(s, part);
}

void scan_file(struct scan *s, const uint8_t *file, size_t from, size_t to)
{
    s->file = file;
    s->size = to;
    s->at = from;
    s->count = 0;
    while (find(s, "'", 1))
        macro(s);
}
