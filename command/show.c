/* cdx show: the entries of a sheet as a tree, for a person.
 * Kinds, forms, names and spans are those of document 01's "Entries"; the text of Content is as "Content" has it. The kinds of times are
 * those of 001 §18. */
#include "glyphs.h"
#include "sheets.h"
#include "words.h"

#include <stdio.h>
#include <string.h>

static const char help[] =
    "cdx show -t TABLE [FILE]   prints the entries of a sheet, each below what it belongs to\n"
    "\n"
    "    Concept Lab (children)\n"
    "      trait sizes (list of 2)\n"
    "        item (integer) 4\n"
    "        item (string) \"eight\"\n"
    "      Concept Steps (Content)\n"
    "        Content (1 line)\n"
    "          | Boot the machine.\n"
    "\n"
    "Values are as they are spelt in the sheet, each with its form, a time with its kind,\n"
    "an item of a map with its key.\n"
    "An annotation stands above its Concept.\n"
    "\n"
    "TABLE is a mode table or its text. No FILE, or `-`, is standard input.\n"
    "Status 1 if the sheet is refused, 2 if a file could not be read.\n"
    "\n"
    "Example: cdx show -t course.txt sheets/paging.cdx\n";

/* A part of the sheet. */
struct part {
    const uint8_t *bytes;
    size_t length;
};

static const uint32_t *entry_of(const struct sheet *sheet, uint32_t number)
{
    return sheet->cells + number * CDX_CELLS;
}

static struct part name_of(const struct sheet *sheet, const uint32_t *entry)
{
    return (struct part){sheet->bytes + entry[CDX_NAME_START], entry[CDX_NAME_END] - entry[CDX_NAME_START]};
}

/* The part that an entry's span names. */
static struct part view(const struct sheet *sheet, uint32_t number)
{
    uint32_t answer[CDX_ANSWER];
    cdx_view(sheet->bytes, sheet->length, sheet->cells, CDX_MAX_CELLS, number, answer);
    return (struct part){sheet->bytes + answer[1], answer[2] - answer[1]};
}

static void print_part(struct part part)
{
    print_glyphs(stdout, part.bytes, part.length);
}

/* Prints a value on one line: in a backtick string white space with a line end in it is one space, as it is in its meaning. */
static void print_value(struct part value)
{
    while (value.length > 0) {
        const uint8_t *feed = memchr(value.bytes, '\n', value.length);
        size_t line = feed != NULL ? (size_t)(feed - value.bytes) : value.length;
        size_t text = line;
        while (feed != NULL && text > 0 && is_white(value.bytes[text - 1]))
            text--;
        print_part((struct part){value.bytes, text});
        while (line < value.length && is_white(value.bytes[line]))
            line++;
        if (line < value.length)
            fputc(' ', stdout);
        value.bytes += line;
        value.length -= line;
    }
}

/* Indents by two columns for each entry around. */
static void indent(unsigned depth)
{
    printf("%*s", (int)(2 * depth), "");
}

/* The tabs before the marker of the Concept that a Content belongs to. */
static size_t tabs_before(const struct sheet *sheet, uint32_t concept)
{
    size_t marker = entry_of(sheet, concept)[CDX_SPAN_START], start = marker;
    while (start > 0 && sheet->bytes[start - 1] == '\t')
        start--;
    return marker - start;
}

/* The text of a line of Content: what stands behind so many tabs; nothing in a line of spaces and tabs only. */
static struct part text_of_line(struct part line, size_t tabs)
{
    if (line.length > 0 && line.bytes[line.length - 1] == '\r')
        line.length--;
    size_t blank = 0;
    while (blank < line.length && is_white(line.bytes[blank]))
        blank++;
    if (blank == line.length)
        return (struct part){line.bytes, 0};
    return (struct part){line.bytes + tabs, line.length - tabs};
}

/* Content is whole lines, each with its line end. */
static void print_content(const struct sheet *sheet, uint32_t number, unsigned depth)
{
    struct part content = view(sheet, number);
    size_t tabs = tabs_before(sheet, entry_of(sheet, number)[CDX_PARENT]) + 1, lines = 0;
    for (size_t at = 0; at < content.length; at++)
        lines += content.bytes[at] == '\n';
    printf(" (%zu %s)\n", lines, lines == 1 ? "line" : "lines");
    for (const uint8_t *line = content.bytes, *end = line + content.length; line < end;) {
        const uint8_t *feed = memchr(line, '\n', (size_t)(end - line));
        struct part text = text_of_line((struct part){line, (size_t)(feed - line)}, tabs);
        indent(depth + 1);
        fputs(text.length > 0 ? "| " : "|", stdout);
        print_part(text);
        fputc('\n', stdout);
        line = feed + 1;
    }
}

/* What a value is: its form, or the kind of a time. */
static const char *value_in_words(uint32_t form, struct part value)
{
    return form == CDX_TIME ? time_kind_in_words(cdx_time(value.bytes, value.length)) : value_form_in_words(form);
}

static bool has_items(uint32_t form)
{
    return form == CDX_LIST || form == CDX_SET || form == CDX_MAP || form == CDX_TUPLE;
}

static void print_valued(const struct sheet *sheet, uint32_t number, const uint32_t *entry)
{
    if (has_items(entry[CDX_FORM])) {
        printf(" (%s of %u)\n", value_form_in_words(entry[CDX_FORM]), entry[CDX_COUNT]);
        return;
    }
    struct part value = view(sheet, number);
    printf(" (%s) ", value_in_words(entry[CDX_FORM], value));
    print_value(value);
    fputc('\n', stdout);
}

static void print_annotation(const struct sheet *sheet, uint32_t number)
{
    fputs(" [", stdout);
    print_part(view(sheet, number));
    fputs("]\n", stdout);
}

static void print_entry(const struct sheet *sheet, uint32_t number, unsigned depth)
{
    const uint32_t *entry = entry_of(sheet, number);
    struct part name = name_of(sheet, entry);
    indent(depth);
    fputs(kind_in_words(entry[CDX_KIND]), stdout);
    fputs(name.length > 0 ? " " : "", stdout);
    print_part(name);
    switch (entry[CDX_KIND]) {
    case CDX_CONCEPT:
        printf(" (%s)\n", concept_form_in_words(entry[CDX_FORM]));
        break;
    case CDX_TRAIT:
    case CDX_ITEM:
        print_valued(sheet, number, entry);
        break;
    case CDX_ANNOTATION:
        print_annotation(sheet, number);
        break;
    default:
        print_content(sheet, number, depth);
    }
}

/* An entry stands one deeper than its parent, which comes before it. */
static void print_tree(const struct sheet *sheet)
{
    static unsigned depth[CDX_MAX_ENTRIES];
    for (uint32_t number = 0; number < sheet->answer[2]; number++) {
        uint32_t parent = entry_of(sheet, number)[CDX_PARENT];
        depth[number] = parent == CDX_TOP ? 0 : depth[parent] + 1;
        print_entry(sheet, number, depth[number]);
    }
}

static enum status show(const struct request *request, const struct table *table, struct sheet *sheet)
{
    (void)request;
    if (!read_sheet(table, sheet))
        return refuse_sheet(stderr, table, sheet);
    print_tree(sheet);
    return ALL_WELL;
}

static const char *wrong_with(const struct request *request)
{
    return request->count > 1 ? "more than one FILE" : NULL;
}

static enum status run(const struct request *request, const struct table *table)
{
    return for_each_sheet(request, table, show);
}

const struct command show_command = {"show", ":ht:", help, wrong_with, run};
