/* The text of a mode table: lines such as `children Lab Course` and `content Steps`, and comments behind `#`.
 * Lengths and counts are judged here, since a table has one byte for each; whether the names are good says cdx_table. */
#include "texts.h"

#include "glyphs.h"

#include <string.h>

/* A run of bytes of the text without white space. */
struct word {
    size_t start, length;
};

/* The names of one mode, in their order. */
struct section {
    const char *called;
    size_t count;
    struct word names[CDX_MAX_SECTION];
};

struct text {
    const uint8_t *bytes;
    size_t length;
    struct section sections[2];
    struct fault *fault;
};

static bool found_fault(struct text *text, size_t at, const char *why)
{
    *text->fault = (struct fault){at, why};
    return false;
}

/* Takes the next word of a line, and moves behind it. At a comment and at the line's end there is none. */
static bool next_word(const struct text *text, size_t *at, size_t end, struct word *word)
{
    while (*at < end && is_white(text->bytes[*at]))
        ++*at;
    if (*at == end || text->bytes[*at] == '#')
        return false;
    word->start = *at;
    while (*at < end && !is_white(text->bytes[*at]))
        ++*at;
    word->length = *at - word->start;
    return true;
}

static bool is_called(const struct text *text, struct word word, const char *name)
{
    return word.length == strlen(name) && memcmp(text->bytes + word.start, name, word.length) == 0;
}

static struct section *section_of(struct text *text, struct word word)
{
    for (size_t number = 0; number < 2; number++)
        if (is_called(text, word, text->sections[number].called))
            return &text->sections[number];
    return NULL;
}

static bool add_name(struct text *text, struct section *section, struct word name)
{
    if (name.length > CDX_MAX_NAME)
        return found_fault(text, name.start, "this name has more than 32 letters");
    if (section->count == CDX_MAX_SECTION)
        return found_fault(text, name.start, "more than 64 names in this mode");
    section->names[section->count++] = name;
    return true;
}

/* A line: nothing, or `children` or `content` and the names in that mode. */
static bool read_line(struct text *text, size_t start, size_t end)
{
    struct word word;
    if (!next_word(text, &start, end, &word))
        return true;
    struct section *section = section_of(text, word);
    if (section == NULL)
        return found_fault(text, word.start, "the word children or content was due here");
    while (next_word(text, &start, end, &word))
        if (!add_name(text, section, word))
            return false;
    return true;
}

static bool read_lines(struct text *text)
{
    if (text->length > MAX_TEXT)
        return found_fault(text, MAX_TEXT, "the text has more than 65,536 bytes");
    for (size_t start = 0; start < text->length;) {
        const uint8_t *feed = memchr(text->bytes + start, '\n', text->length - start);
        size_t end = feed != NULL ? (size_t)(feed - text->bytes) : text->length;
        if (!read_line(text, start, end))
            return false;
        start = feed != NULL ? end + 1 : end;
    }
    return true;
}

static void put_section(struct table *table, const struct text *text, const struct section *section)
{
    table->bytes[table->length++] = (uint8_t)section->count;
    for (size_t number = 0; number < section->count; number++) {
        struct word name = section->names[number];
        table->bytes[table->length++] = (uint8_t)name.length;
        memcpy(table->bytes + table->length, text->bytes + name.start, name.length);
        table->length += name.length;
    }
}

/* A name by its number in the table. */
static struct word name_of(const struct text *text, size_t number)
{
    size_t children = text->sections[0].count;
    return number < children ? text->sections[0].names[number] : text->sections[1].names[number - children];
}

/* The number of the name whose first letter stands at this place of the table. A length stands before each name, and a count before
 * each section. */
static size_t number_at(const struct text *text, size_t place)
{
    size_t children = text->sections[0].count, number = 0;
    size_t at = 2 + (children == 0);
    while (at < place) {
        at += name_of(text, number).length + 1;
        number++;
        at += number == children;
    }
    return number;
}

static bool stood_before(const struct text *text, size_t number)
{
    struct word name = name_of(text, number);
    for (size_t earlier = 0; earlier < number; earlier++) {
        struct word other = name_of(text, earlier);
        if (other.length == name.length && memcmp(text->bytes + other.start, text->bytes + name.start, name.length) == 0)
            return true;
    }
    return false;
}

/* With counts and lengths in range cdx_table refuses nothing but a name, the first in the table that is not good. */
static bool are_names_good(struct text *text, const struct table *table)
{
    uint32_t answer[CDX_ANSWER];
    cdx_table(table->bytes, table->length, answer);
    if (answer[0] == CDX_OK)
        return true;
    size_t number = number_at(text, answer[1]);
    const char *why = stood_before(text, number) ? "this name is in the table already" : "this name breaks the name rule";
    return found_fault(text, name_of(text, number).start, why);
}

bool table_of_text(const uint8_t *bytes, size_t length, struct table *table, struct fault *fault)
{
    struct text text = {
        .bytes = bytes,
        .length = length,
        .sections = {{.called = "children"}, {.called = "content"}},
        .fault = fault,
    };
    if (!read_lines(&text))
        return false;
    table->length = 0;
    put_section(table, &text, &text.sections[0]);
    put_section(table, &text, &text.sections[1]);
    return are_names_good(&text, table);
}
