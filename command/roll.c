/* cdx roll: says of each sheet of a roll where it stands and what reading it answers.
 * The records are those of document 01's "Rolls": a sheet that is cut or damaged does not touch the others. */
#include "files.h"
#include "glyphs.h"
#include "places.h"
#include "rolls.h"
#include "twice.h"
#include "words.h"

enum { CAPTION = 40 };

static const char help[] =
    "cdx roll -t TABLE [ROLL]   says of each sheet of a roll whether it is in order\n"
    "\n"
    "Each sheet has a line on standard output: its number, its lines, the first trait of its\n"
    "root, and how many entries it has. Of a sheet that is refused the line begins with line\n"
    "and column in the roll, has the sheet's first line in place of the trait, and tells why\n"
    "it is refused; below it stands the line at fault, with a caret under the place.\n"
    "\n"
    "TABLE is a mode table or its text. No ROLL, or `-`, is standard input.\n"
    "Status 1 if a sheet or the roll is refused, 2 if a file could not be read.\n"
    "\n"
    "Example: cdx roll -t course.txt term.roll\n";

/* Prints the start of some bytes: what there is of the first line, as far as CAPTION columns go. */
static void print_start(const uint8_t *bytes, size_t length)
{
    size_t at = 0, columns = 0;
    while (at < length && bytes[at] != '\r' && bytes[at] != '\n') {
        struct glyph glyph = first_glyph(bytes + at, length - at, columns);
        if (columns + glyph.columns > CAPTION)
            break;
        fputs(glyph.shown, stdout);
        columns += glyph.columns;
        at += glyph.bytes;
    }
    fputs(at < length ? "…" : "", stdout);
}

/* Prints the first trait of an accepted sheet's root, which is its first entry, where it has one: name and value stand side by side. */
static void print_first_trait(const struct table *table, struct roll *roll, const uint32_t *record)
{
    const uint8_t *sheet = roll->bytes + record[CDX_SHEET_START];
    const uint32_t *trait = roll->cells + CDX_CELLS;
    uint32_t answer[CDX_ANSWER];
    cdx_sheet(table->bytes, table->length, sheet, record[CDX_SHEET_END] - record[CDX_SHEET_START], roll->cells, CDX_MAX_CELLS, answer);
    if (trait[CDX_KIND] != CDX_TRAIT)
        return;
    fputs(", ", stdout);
    print_start(sheet + trait[CDX_NAME_START], trait[CDX_SPAN_END] - trait[CDX_NAME_START]);
}

static void print_first_line(const struct roll *roll, const uint32_t *record)
{
    struct place place = place_of(roll->bytes, roll->length, record[CDX_SHEET_START]);
    fputs(", ", stdout);
    print_start(roll->bytes + place.start, place.end - place.start);
}

/* Prints a sheet's number in the roll, counted from 1, and its lines. */
static void print_lines(const struct roll *roll, uint32_t number, const uint32_t *record)
{
    size_t from = place_of(roll->bytes, roll->length, record[CDX_SHEET_START]).line;
    size_t to = place_of(roll->bytes, roll->length, record[CDX_SHEET_END] - 1).line;
    printf(": sheet %u, lines %zu-%zu", number + 1, from, to);
}

static void print_accepted(const struct table *table, struct roll *roll, uint32_t number, const uint32_t *record)
{
    print_name(stdout, roll->name);
    print_lines(roll, number, record);
    print_first_trait(table, roll, record);
    fputs(": ", stdout);
    print_entries(stdout, record[CDX_SHEET_COUNT]);
    fputc('\n', stdout);
}

/* The sheet ends where its record says, whatever comes behind it in the roll. */
static void print_refused(const struct table *table, const struct roll *roll, uint32_t number, const uint32_t *record)
{
    size_t start = record[CDX_SHEET_START], end = record[CDX_SHEET_END], at = start + record[CDX_SHEET_PLACE];
    print_place(stdout, roll->name, roll->bytes, end, at);
    print_lines(roll, number, record);
    print_first_line(roll, record);
    printf(": refused %u: %s\n", record[CDX_SHEET_NUMBER], refusal_in_words(record[CDX_SHEET_NUMBER]));
    print_line(stdout, roll->bytes, end, at);
    if (record[CDX_SHEET_NUMBER] == CDX_TRAIT_TWICE)
        print_stood_first(stdout, roll->name, roll->bytes, end,
                          start + first_place(table, roll->bytes + start, end - start, record[CDX_SHEET_PLACE]));
}

/* Prints all sheets, and gives how many are refused. */
static uint32_t print_sheets(const struct table *table, struct roll *roll)
{
    uint32_t refused = 0;
    for (uint32_t number = 0; number < roll->answer[2]; number++) {
        const uint32_t *record = roll->records + number * CDX_RECORD;
        if (record[CDX_SHEET_NUMBER] == CDX_OK) {
            print_accepted(table, roll, number, record);
        } else {
            print_refused(table, roll, number, record);
            refused++;
        }
    }
    return refused;
}

static const char *wrong_with(const struct request *request)
{
    return request->count > 1 ? "more than one ROLL" : NULL;
}

static enum status run(const struct request *request, const struct table *table)
{
    static struct roll roll;
    if (!load_roll(request->files[0], &roll))
        return FAILED;
    if (!read_roll(table, &roll)) {
        refuse_roll(stdout, &roll);
        return is_written() ? REFUSED : FAILED;
    }
    uint32_t refused = print_sheets(table, &roll);
    print_name(stdout, roll.name);
    fputs(": ", stdout);
    print_sheet_count(stdout, roll.answer[2]);
    printf(", %u refused\n", refused);
    return !is_written() ? FAILED : refused > 0 ? REFUSED : ALL_WELL;
}

const struct command roll_command = {"roll", ":ht:", help, wrong_with, run};
