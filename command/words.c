/* The numbers of an answer and of an entry in words.
 * They follow the sections "Entries" and "Refusal numbers" of document 01, document 02, Six, and 001 §18. */
#include "words.h"

#include "cdx.h"
#include "places.h"

/* The compiler asks for a case for each number of cdx.h. */
const char *refusal_in_words(uint32_t number)
{
    switch ((enum cdx_number)number) {
    case CDX_OK:
        return "it is in order";
    case CDX_TABLE:
        return "the mode table is not in order";
    case CDX_SHEET_TOO_LONG:
        return "the sheet has more than 16,384 bytes";
    case CDX_BYTES:
        return "no sheet may have these bytes";
    case CDX_NAME:
        return "this name breaks the name rule, or has more than 32 letters";
    case CDX_UNLISTED:
        return "this name is not in the mode table";
    case CDX_VALUE:
        return "no kind of value fits here";
    case CDX_DUE:
        return "something else was due here";
    case CDX_CLOSING_NAME:
        return "the open Concept has another name";
    case CDX_CUT:
        return "the sheet ends before its root is closed";
    case CDX_TOO_DEEP:
        return "more than 32 Concepts, or 8 brackets, in one another";
    case CDX_NO_ENTRY_LEFT:
        return "more than 1,024 entries";
    case CDX_NO_ROOM:
        return "the canonical form has more than 16,384 bytes";
    case CDX_ROLL_TOO_LONG:
        return "the roll has more than 65,536 bytes";
    case CDX_BEFORE_BOUNDARY:
        return "something stands before the first sheet";
    case CDX_TOO_MANY_SHEETS:
        return "more than 256 sheets";
    case CDX_ROOT_ANNOTATED:
        return "no sheet of a roll has an annotation before its root";
    case CDX_VIEW:
        return "this entry cannot be viewed";
    case CDX_TRAIT_TWICE:
        return "the Concept has a trait of this name already";
    }
    return "for a reason that this command does not know";
}

const char *kind_in_words(uint32_t kind)
{
    static const char *const words[] = {
        [CDX_CONCEPT] = "Concept",       [CDX_TRAIT] = "trait",     [CDX_ITEM] = "item",
        [CDX_ANNOTATION] = "annotation", [CDX_CONTENT] = "Content",
    };
    return words[kind];
}

const char *concept_form_in_words(uint32_t form)
{
    static const char *const words[] = {
        [CDX_SELF_CLOSED] = "self-closed",
        [CDX_CHILDREN] = "children",
        [CDX_HAS_CONTENT] = "Content",
    };
    return words[form];
}

const char *value_form_in_words(uint32_t form)
{
    static const char *const words[] = {
        [CDX_STRING] = "string",   [CDX_CHARACTER] = "character",   [CDX_BOOLEAN] = "boolean",   [CDX_INTEGER] = "integer",
        [CDX_DECIMAL] = "decimal", [CDX_SCIENTIFIC] = "scientific", [CDX_FRACTION] = "fraction", [CDX_PASCAL] = "$ word",
        [CDX_CAMEL] = "~ word",    [CDX_UUID] = "UUID",             [CDX_IRI] = "IRI",           [CDX_LIST] = "list",
        [CDX_SET] = "set",         [CDX_MAP] = "map",               [CDX_TUPLE] = "tuple",
    };
    return words[form];
}

const char *time_kind_in_words(uint32_t kind)
{
    static const char *const words[] = {
        [CDX_ZONED] = "date, time and zone", [CDX_LOCAL] = "date and time",     [CDX_DATE] = "date",
        [CDX_YEAR_MONTH] = "year and month", [CDX_MONTH_DAY] = "month and day", [CDX_TIME_OF_DAY] = "time",
        [CDX_DURATION] = "duration",         [CDX_RESERVED] = "reserved word",
    };
    return words[kind];
}

void print_entries(FILE *out, uint32_t entries)
{
    fprintf(out, "%u %s", entries, entries == 1 ? "entry" : "entries");
}

void print_sheet_count(FILE *out, uint32_t sheets)
{
    fprintf(out, "%u %s", sheets, sheets == 1 ? "sheet" : "sheets");
}

void print_refusal(FILE *out, const char *name, const uint8_t *bytes, size_t length, size_t at, uint32_t number, const char *why)
{
    print_place(out, name, bytes, length, at);
    fprintf(out, ": refused %u: %s\n", number, why);
    print_line(out, bytes, length, at);
}

void print_stood_first(FILE *out, const char *name, const uint8_t *bytes, size_t length, size_t at)
{
    print_place(out, name, bytes, length, at);
    fputs(": it stood here first\n", out);
    print_line(out, bytes, length, at);
}
