/* Characters as a terminal shows them: how many columns each takes, and marks for what does not show.
 * UTF-8 is that of document 01, "Bytes"; the columns are those of Unicode's blocks, not of the locale. */
#include "glyphs.h"

#include <string.h>

struct range {
    uint32_t first, last;
};

/* Controls, line breaks, marks that turn the direction of writing, and white space that looks like a space: what would garble the line
 * or is not what it seems is shown by its bytes. */
static const struct range hidden[] = {
    {0x00, 0x1F},     {0x7F, 0xA0},     {0x61C, 0x61C},   {0x1680, 0x1680}, {0x2000, 0x200A}, {0x200E, 0x200F},   {0x2028, 0x202F},
    {0x205F, 0x206F}, {0x3000, 0x3000}, {0xFEFF, 0xFEFF}, {0xFFF9, 0xFFFB}, {0xE0001, 0xE007F},
};

/* Marks that are drawn onto the character before them. */
static const struct range combining[] = {
    {0x300, 0x36F},   {0x483, 0x489},   {0x591, 0x5BD},   {0x5BF, 0x5BF},   {0x5C1, 0x5C2},   {0x5C4, 0x5C5},
    {0x5C7, 0x5C7},   {0x610, 0x61A},   {0x64B, 0x65F},   {0x670, 0x670},   {0x6D6, 0x6DC},   {0xE31, 0xE31},
    {0xE34, 0xE3A},   {0xE47, 0xE4E},   {0x1AB0, 0x1AFF}, {0x1DC0, 0x1DFF}, {0x200B, 0x200D}, {0x20D0, 0x20FF},
    {0x3099, 0x309A}, {0xFE00, 0xFE0F}, {0xFE20, 0xFE2F}, {0xE0100, 0xE01EF},
};

/* Characters of two columns: the scripts of East Asia, and emoji. */
static const struct range wide[] = {
    {0x1100, 0x115F},   {0x231A, 0x231B},   {0x23E9, 0x23EC},   {0x2614, 0x2615},   {0x2648, 0x2653},   {0x26A1, 0x26A1},
    {0x2705, 0x2705},   {0x274C, 0x274C},   {0x2753, 0x2757},   {0x2795, 0x2797},   {0x2E80, 0x303E},   {0x3041, 0x3247},
    {0x3250, 0x4DBF},   {0x4E00, 0xA4CF},   {0xA960, 0xA97F},   {0xAC00, 0xD7A3},   {0xF900, 0xFAFF},   {0xFE10, 0xFE19},
    {0xFE30, 0xFE6F},   {0xFF01, 0xFF60},   {0xFFE0, 0xFFE6},   {0x1F300, 0x1F320}, {0x1F32D, 0x1F5A4}, {0x1F5FB, 0x1F64F},
    {0x1F680, 0x1F6FC}, {0x1F900, 0x1F9FF}, {0x1FA70, 0x1FAFF}, {0x20000, 0x3FFFD},
};

bool is_white(uint8_t byte)
{
    return byte == ' ' || byte == '\t' || byte == '\r' || byte == '\n';
}

static bool is_in(const struct range *ranges, size_t count, uint32_t scalar)
{
    for (size_t number = 0; number < count; number++)
        if (ranges[number].first <= scalar && scalar <= ranges[number].last)
            return true;
    return false;
}

#define IS_IN(ranges, scalar) is_in(ranges, sizeof(ranges) / sizeof *(ranges), scalar)

/* How many bytes a character has by its first one; 0 where none begins so. */
static size_t due_bytes(uint8_t first)
{
    if (first < 0x80)
        return 1;
    if (first < 0xC2 || first > 0xF4)
        return 0;
    return first < 0xE0 ? 2 : first < 0xF0 ? 3 : 4;
}

/* The bytes and the scalar value of the first character; 0 bytes where there is none. */
static size_t decode(const uint8_t *bytes, size_t length, uint32_t *scalar)
{
    static const uint32_t least[] = {0, 0, 0x80, 0x800, 0x10000};
    size_t due = due_bytes(bytes[0]);
    if (due == 0 || due > length)
        return 0;
    *scalar = due == 1 ? bytes[0] : bytes[0] & (0x7Fu >> due);
    for (size_t next = 1; next < due; next++) {
        if ((bytes[next] & 0xC0) != 0x80)
            return 0;
        *scalar = *scalar << 6 | (bytes[next] & 0x3Fu);
    }
    bool surrogate = 0xD800 <= *scalar && *scalar <= 0xDFFF;
    return *scalar < least[due] || *scalar > 0x10FFFF || surrogate ? 0 : due;
}

/* Bytes in hex between angle quotes: two columns for each, and one on either side of each. */
static struct glyph marked(const uint8_t *bytes, size_t count)
{
    struct glyph glyph = {.bytes = count, .columns = 3 * count + 1, .shown = "‹"};
    char *at = glyph.shown + strlen(glyph.shown);
    for (size_t number = 0; number < count; number++)
        at += sprintf(at, number == 0 ? "%02X" : " %02X", bytes[number]);
    strcpy(at, "›");
    return glyph;
}

static struct glyph tab(size_t columns)
{
    struct glyph glyph = {.bytes = 1, .columns = TAB_STOP - columns % TAB_STOP};
    memset(glyph.shown, ' ', glyph.columns);
    return glyph;
}

struct glyph first_glyph(const uint8_t *bytes, size_t length, size_t columns)
{
    if (bytes[0] == '\t')
        return tab(columns);
    uint32_t scalar;
    size_t count = decode(bytes, length, &scalar);
    if (count == 0 || IS_IN(hidden, scalar))
        return marked(bytes, count == 0 ? 1 : count);
    struct glyph glyph = {.bytes = count, .columns = IS_IN(combining, scalar) ? 0 : IS_IN(wide, scalar) ? 2 : 1};
    memcpy(glyph.shown, bytes, count);
    return glyph;
}

void print_glyphs(FILE *out, const uint8_t *bytes, size_t length)
{
    size_t columns = 0;
    for (size_t at = 0; at < length;) {
        struct glyph glyph = first_glyph(bytes + at, length - at, columns);
        fputs(glyph.shown, out);
        columns += glyph.columns;
        at += glyph.bytes;
    }
}

void print_name(FILE *out, const char *name)
{
    print_glyphs(out, (const uint8_t *)name, strlen(name));
}
