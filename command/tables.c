/* Mode tables: read from a file that has the table or its text, and printed as text.
 * Document 01's "The mode table" says when one is in order. */
#include "tables.h"

#include "files.h"
#include "glyphs.h"
#include "texts.h"
#include "words.h"

#include <string.h>

enum { LINE = 78 };

/* Whether there is something, and no byte below 32 but tabs and line ends. A table has such a byte, be it as a count or as a length,
 * unless all of them happen to be 9, 10, 13 or 32 and above. */
static bool is_text(const uint8_t *bytes, size_t length)
{
    for (size_t at = 0; at < length; at++)
        if (bytes[at] < ' ' && bytes[at] != '\t' && bytes[at] != '\n' && bytes[at] != '\r')
            return false;
    return length > 0;
}

static enum status load_text(const char *name, const uint8_t *bytes, size_t length, struct table *table)
{
    struct fault fault;
    if (table_of_text(bytes, length, table, &fault))
        return ALL_WELL;
    print_refusal(stderr, name, bytes, length, fault.at, CDX_TABLE, fault.why);
    return REFUSED;
}

/* No text with a name in it is a table as well: in a table its words `children` and `content` would be letters of names, of which
 * each begins with a capital. */
enum status load_table(const char *file, struct table *table)
{
    static uint8_t bytes[MAX_TEXT + 1];
    size_t length;
    uint32_t answer[CDX_ANSWER];
    if (!load(file, bytes, sizeof bytes, &length))
        return FAILED;
    cdx_table(bytes, length, answer);
    if (answer[0] == CDX_OK) {
        table->length = length;
        memcpy(table->bytes, bytes, length);
        return ALL_WELL;
    }
    if (is_text(bytes, length))
        return load_text(called(file), bytes, length, table);
    print_name(stderr, called(file));
    fprintf(stderr, ": refused %u: %s, at byte %u\n", answer[0], refusal_in_words(answer[0]), answer[1]);
    return REFUSED;
}

/* Prints a section's word and its names, on as many lines as they take, and gives where the next section starts. */
static const uint8_t *print_section(FILE *out, const char *word, const uint8_t *section)
{
    const uint8_t *at = section + 1;
    size_t columns = strlen(word);
    fputs(word, out);
    for (uint8_t left = *section; left > 0; left--) {
        uint8_t letters = *at++;
        if (columns + 1 + letters > LINE) {
            fprintf(out, "\n%s", word);
            columns = strlen(word);
        }
        fprintf(out, " %.*s", (int)letters, (const char *)at);
        columns += 1u + letters;
        at += letters;
    }
    fputc('\n', out);
    return at;
}

void print_table(FILE *out, const struct table *table)
{
    print_section(out, "content", print_section(out, "children", table->bytes));
}
