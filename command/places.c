/* Lines and columns of a byte, and the line printed with a caret below it. */
#include "command.h"
#include <string.h>

/* Of a long line so many bytes are shown before and after the caret. */
enum { SHOWN_BEFORE = 60, SHOWN_AFTER = 40 };

struct place place_of(const uint8_t *bytes, size_t size, size_t at)
{
    struct place place = {1, 1, 0, at};
    for (size_t i = 0; i < at && i < size; i++) {
        if (bytes[i] == '\n') {
            place.line++;
            place.from = i + 1;
        }
    }
    place.column = at - place.from + 1;
    while (place.to < size && bytes[place.to] != '\n')
        place.to++;
    return place;
}

/* Prints what stands at a byte so that it is safe on a terminal, and gives its
   bytes and columns. A byte that is no letter of UTF-8 is printed as \xE9. */
static size_t show_letter(FILE *out, const uint8_t *bytes, size_t size, size_t *columns)
{
    uint32_t point = 0;
    size_t length = letter_at(bytes, size, &point);
    int control = point < 32 || (point >= 127 && point < 160) || (point >= 0x202A && point <= 0x202E)
                  || (point >= 0x2066 && point <= 0x2069);
    if (length == 0 || (control && point != '\t')) {
        length = length == 0 ? 1 : length;
        for (size_t i = 0; i < length; i++)
            if (out != NULL)
                fprintf(out, "\\x%02X", bytes[i]);
        *columns = 4 * length;
        return length;
    }
    if (out != NULL)
        fwrite(bytes, 1, length, out);
    *columns = columns_of(point);
    return length;
}

/* The room up to the caret: a tab for a tab, so that both lines stay in step. */
static void show_room(FILE *out, const uint8_t *bytes, size_t from, size_t at, size_t to)
{
    size_t columns;
    while (from < at) {
        size_t length = show_letter(NULL, bytes + from, to - from, &columns);
        if (from + length > at)
            break;
        if (bytes[from] == '\t')
            fputc('\t', out);
        else
            fprintf(out, "%*s", (int)columns, "");
        from += length;
    }
}

/* Moves a cut back to the first byte of the letter that it would divide. */
static size_t whole_letter(const uint8_t *bytes, size_t from, size_t at, size_t size)
{
    uint32_t point;
    for (size_t back = 1; back <= 3 && from + back <= at; back++)
        if (letter_at(bytes + at - back, size - (at - back), &point) > back)
            return at - back;
    return at;
}

void show_line(FILE *out, const uint8_t *bytes, size_t size, size_t at)
{
    struct place place = place_of(bytes, size, at);
    size_t from = place.from, to = place.to, columns;
    int before = at - from > SHOWN_BEFORE, after = to - at > SHOWN_AFTER;
    if (from == size) {
        fputs("    (the end of the file)\n    ^\n", out);
        return;
    }
    if (before)
        from = whole_letter(bytes, from, at - SHOWN_BEFORE, size);
    if (after)
        to = whole_letter(bytes, at, at + SHOWN_AFTER, size);
    else if (to > at && bytes[to - 1] == '\r')
        to--;
    fputs(before ? "    .." : "    ", out);
    for (size_t i = from; i < to;)
        i += show_letter(out, bytes + i, to - i, &columns);
    fputs(after ? "..\n" : "\n", out);
    fputs(before ? "      " : "    ", out);
    show_room(out, bytes, from, at, to);
    fputs("^\n", out);
}

/* As show_letter, with \n and \t for line feed and tab, as macros have them. */
static size_t show_spelled(FILE *out, const uint8_t *bytes, size_t size, size_t *columns)
{
    if (bytes[0] != '\n' && bytes[0] != '\t')
        return show_letter(out, bytes, size, columns);
    if (out != NULL)
        fputs(bytes[0] == '\n' ? "\\n" : "\\t", out);
    *columns = 2;
    return 1;
}

void show_text(FILE *out, const uint8_t *bytes, size_t size)
{
    size_t columns;
    if (size == 0)
        fputs("(empty)", out);
    for (size_t i = 0; i < size;)
        i += show_spelled(out, bytes + i, size - i, &columns);
}

/* Carets below the letters with a marked byte, after some room. */
static void show_carets(FILE *out, size_t room, const uint8_t *bytes, const uint8_t *marks,
                        size_t from, size_t to)
{
    size_t columns;
    if (memchr(marks + from, 1, to - from) == NULL)
        return;
    for (size_t length; from < to; from += length) {
        length = show_spelled(NULL, bytes + from, to - from, &columns);
        if (memchr(marks + from, 1, length) == NULL) {
            room += columns;
            continue;
        }
        fprintf(out, "%*s", (int)room, "");
        for (room = 0; columns > 0; columns--)
            fputc('^', out);
    }
    fputc('\n', out);
}

void show_marked(FILE *out, const char *label, const uint8_t *bytes, size_t size,
                 const uint8_t *marks, size_t from, size_t to)
{
    int before = from > SHOWN_BEFORE, after = size - to > SHOWN_AFTER;
    from = before ? whole_letter(bytes, 0, from - SHOWN_BEFORE, size) : 0;
    to = after ? whole_letter(bytes, to, to + SHOWN_AFTER, size) : size;
    fprintf(out, "%s%s", label, before ? ".." : "");
    show_text(out, bytes + from, to - from);
    fputs(after ? "..\n" : "\n", out);
    show_carets(out, strlen(label) + (before ? 2 : 0), bytes, marks, from, to);
}
