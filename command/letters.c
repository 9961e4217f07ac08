/* Letters in UTF-8. */
#include "command.h"

struct range {
    uint32_t from, to;
};

static int within(uint32_t point, const struct range *ranges, size_t count)
{
    for (size_t i = 0; i < count; i++)
        if (point >= ranges[i].from && point <= ranges[i].to)
            return 1;
    return 0;
}

#define WITHIN(point, ranges) within(point, ranges, sizeof(ranges) / sizeof(ranges)[0])

/* How many bytes follow the first one of a letter; 0 if it begins none of more than one byte. */
static size_t more_bytes(uint8_t first)
{
    return first >= 0xC2 && first <= 0xDF ? 1
           : first >= 0xE0 && first <= 0xEF ? 2
           : first >= 0xF0 && first <= 0xF4 ? 3 : 0;
}

size_t letter_at(const uint8_t *bytes, size_t size, uint32_t *point)
{
    static const uint32_t least[] = {0, 0x80, 0x800, 0x10000};
    size_t more;
    if (size == 0)
        return 0;
    *point = bytes[0];
    if (bytes[0] < 0x80)
        return 1;
    more = more_bytes(bytes[0]);
    if (more == 0 || size <= more)
        return 0;
    *point = bytes[0] & (0x3Fu >> more);
    for (size_t i = 1; i <= more; i++) {
        if ((bytes[i] & 0xC0) != 0x80)
            return 0;
        *point = *point << 6 | (bytes[i] & 0x3Fu);
    }
    if (*point < least[more] || *point > 0x10FFFF || (*point >= 0xD800 && *point <= 0xDFFF))
        return 0;
    return more + 1;
}

size_t columns_of(uint32_t point)
{
    static const struct range none[] = {
        {0x300, 0x36F}, {0x200B, 0x200F}, {0x20D0, 0x20FF}, {0xFE00, 0xFE0F}, {0xFEFF, 0xFEFF}};
    static const struct range two[] = {
        {0x1100, 0x115F}, {0x2E80, 0xA4CF}, {0xAC00, 0xD7A3}, {0xF900, 0xFAFF}, {0xFE30, 0xFE6F},
        {0xFF00, 0xFF60}, {0xFFE0, 0xFFE6}, {0x1F300, 0x1F64F}, {0x1F900, 0x1F9FF},
        {0x20000, 0x3FFFD}};
    return WITHIN(point, none) ? 0 : WITHIN(point, two) ? 2 : 1;
}

int quote_like(uint32_t point)
{
    static const struct range quotes[] = {
        {'"', '"'}, {'`', '`'}, {0xAB, 0xAB}, {0xB4, 0xB4}, {0xBB, 0xBB},
        {0x2018, 0x201F}, {0x2032, 0x2036}, {0x2039, 0x203A}};
    return WITHIN(point, quotes);
}
