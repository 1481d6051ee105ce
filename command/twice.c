/* A trait that stands twice in a Concept: where it stood first.
 * The sheet is read again with room for no entry, for one, for two and so on. As long as that is too little, the answer is document
 * 01's refusal 11, at the start of what has no entry left. So the reader itself tells where each trait before the second one begins. */
#include "twice.h"

#include <ctype.h>
#include <string.h>

/* How many bytes the name has that stands at a place: all letters and digits from there on. */
static size_t name_length(const uint8_t *sheet, size_t length, size_t at)
{
    size_t end = at;
    while (end < length && isalnum(sheet[end]))
        end++;
    return end - at;
}

/* Of all entries that begin with the name and "=" the last one is the trait: behind it there are only other traits of its marker, and
 * items, none of which begins so. */
size_t first_place(const struct table *table, const uint8_t *sheet, size_t length, size_t again)
{
    static uint32_t cells[CDX_MAX_CELLS];
    size_t name = name_length(sheet, length, again), first = again;
    for (size_t lent = 0; lent < CDX_MAX_CELLS; lent += CDX_CELLS) {
        uint32_t answer[CDX_ANSWER];
        cdx_sheet(table->bytes, table->length, sheet, length, cells, lent, answer);
        if (answer[0] != CDX_NO_ENTRY_LEFT)
            break;
        const uint8_t *entry = sheet + answer[1];
        if (memcmp(entry, sheet + again, name) == 0 && entry[name] == '=')
            first = answer[1];
    }
    return first;
}
