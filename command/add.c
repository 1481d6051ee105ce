/* cdx add: adds sheets to a roll, all of them or none.
 * What is added is document 01's: the canonical form of each and one further LF, at the roll's end. */
#include "files.h"
#include "glyphs.h"
#include "lock.h"
#include "replace.h"
#include "rolls.h"
#include "sheets.h"
#include "words.h"

#include <errno.h>
#include <string.h>
#include <strings.h>

static const char help[] =
    "cdx add -t TABLE ROLL [SHEET..]      adds sheets to a roll, in canonical form\n"
    "cdx add -t TABLE -n ROLL [SHEET..]   makes a new roll of them\n"
    "\n"
    "All sheets are added or none: where one is refused the roll stays as it is. A\n"
    "new file takes the place of the old one, with its owner and its mode, so that\n"
    "the roll is the old one or the new one at every moment. The sheets are read\n"
    "first; then, of several who add at once, each waits for its turn. To a roll that\n"
    "is refused nothing is added, nor more than 256 sheets.\n"
    "\n"
    "ROLL comes first. Without -n it has to be there, and with -n it must not be; an\n"
    "empty file is a roll without sheets. A file named .cdx is a sheet, and never\n"
    "taken for a roll. Nor is one that reads as a single sheet and does not end in an\n"
    "empty line, as rolls do, unless -f says that it is a roll.\n"
    "\n"
    "TABLE is a mode table or its text. No SHEET, or `-`, is standard input.\n"
    "Status 1 if a sheet or the roll is refused, 2 for wrong use, or if a file could\n"
    "not be read or written.\n"
    "\n"
    "Example: cdx add -t course.txt term.roll sheets/exam.cdx\n";

static struct roll roll;

/* The sheets that are to come to it, as a roll of their own, and where each of them ends. */
static struct roll more;
static size_t ends[CDX_MAX_SHEETS], laid_out;

/* ---- The roll */

/* Says why what stands in the roll's place is not taken for one. */
static enum status wrong_roll(const char *why)
{
    fputs("cdx add: ", stderr);
    print_name(stderr, roll.name);
    fprintf(stderr, " %s (`cdx add -h` tells more)\n", why);
    return FAILED;
}

/* Whether a file is named as sheets are, in capitals too. */
static bool is_named_sheet(const char *file)
{
    static const char ending[] = ".cdx";
    size_t length = strlen(file), end = sizeof ending - 1;
    return length >= end && strcasecmp(file + length - end, ending) == 0;
}

/* Whether the roll's file ends in an empty line, as every roll does to which sheets were added. */
static bool ends_in_empty_line(void)
{
    return roll.length >= 2 && roll.bytes[roll.length - 2] == '\n' && roll.bytes[roll.length - 1] == '\n';
}

/* Whether the roll's file, as a whole, reads as a sheet. */
static bool reads_as_sheet(const struct table *table)
{
    uint32_t answer[CDX_ANSWER];
    cdx_sheet(table->bytes, table->length, roll.bytes, roll.length, roll.cells, CDX_MAX_CELLS, answer);
    return answer[0] == CDX_OK;
}

/* Reads the roll's file, where it is one. A new roll has no file yet, and begins empty. */
static enum status take_roll(const struct request *request, const struct table *table)
{
    const char *file = request->files[0];
    roll.name = file;
    roll.length = 0;
    if (is_named_sheet(file))
        return wrong_roll("is named as a sheet, and ROLL comes first");
    bool found = is_there(file);
    if (request->is_new)
        return found ? wrong_roll("is there already; without -n sheets are added to it") : ALL_WELL;
    if (!found && errno == ENOENT)
        return wrong_roll("is not there; -n makes a new roll");
    if (!is_regular(file) || !load_roll(file, &roll))
        return FAILED;
    if (!request->as_roll && !ends_in_empty_line() && reads_as_sheet(table))
        return wrong_roll("reads as a single sheet, and ROLL comes first; -f takes it for a roll");
    return ALL_WELL;
}

/* Reads the roll, and finds whether it can be added to at all and so many sheets may still come to it. */
static enum status look_at_roll(const struct request *request, const struct table *table, size_t sheets)
{
    enum status status = take_roll(request, table);
    if (status != ALL_WELL)
        return status;
    if (!read_roll(table, &roll))
        return refuse_roll(stderr, &roll);
    if (sheets <= CDX_MAX_SHEETS - roll.answer[2])
        return ALL_WELL;
    print_name(stderr, roll.name);
    fprintf(stderr, ": refused %u: the roll would have more than %u sheets\n", CDX_TOO_MANY_SHEETS, CDX_MAX_SHEETS);
    return REFUSED;
}

/* ---- The sheets */

/* The sheets of a request: what it names behind the roll. */
static struct request sheets_of(const struct request *request)
{
    static char standard_input[] = "-", *no_file[] = {standard_input};
    struct request sheets = *request;
    bool named = request->count > 1;
    sheets.files = named ? request->files + 1 : no_file;
    sheets.count = named ? request->count - 1 : 1;
    return sheets;
}

/* Says why a sheet is not added. Two refusals are about the roll. */
static enum status refuse_to_add(const struct table *table, const struct sheet *sheet)
{
    switch (sheet->answer[0]) {
    case CDX_NO_ROOM:
        print_name(stderr, sheet->name);
        fputs(": refused 12: the canonical form has more than 16,383 bytes, or with it the roll more than 65,536\n", stderr);
        return REFUSED;
    case CDX_BEFORE_BOUNDARY:
        print_refusal(stderr, roll.name, roll.bytes, roll.length, sheet->answer[1], CDX_BEFORE_BOUNDARY,
                      "the roll lacks its last line end");
        return REFUSED;
    default:
        return refuse_sheet(stderr, table, sheet);
    }
}

/* Adds a sheet to the roll, or to those that are to come to it. */
static enum status add(const struct table *table, struct sheet *sheet, struct roll *to)
{
    cdx_add(table->bytes, table->length, sheet->bytes, sheet->length, to->bytes, CDX_MAX_ROLL, to->length, sheet->cells, CDX_MAX_CELLS,
            sheet->answer);
    if (sheet->answer[0] != CDX_OK)
        return refuse_to_add(table, sheet);
    to->length = sheet->answer[2];
    return ALL_WELL;
}

/* Lays a sheet out behind those that are to come to the roll. */
static enum status lay_out(const struct request *request, const struct table *table, struct sheet *sheet)
{
    (void)request;
    enum status status = add(table, sheet, &more);
    ends[laid_out++] = more.length;
    return status;
}

/* Adds all that was laid out to the roll. */
static enum status add_all(const struct table *table, const struct request *sheets)
{
    static struct sheet sheet;
    size_t start = 0;
    for (size_t number = 0; number < laid_out; number++) {
        sheet.name = called(sheets->files[number]);
        sheet.length = ends[number] - start;
        memcpy(sheet.bytes, more.bytes + start, sheet.length);
        enum status status = add(table, &sheet, &roll);
        if (status != ALL_WELL)
            return status;
        start = ends[number];
    }
    return ALL_WELL;
}

/* ---- Both */

/* Adds what was laid out to the roll as it is now: since it was looked at first, others may have added to it, or made it. */
static enum status grow(const struct request *request, const struct table *table, const struct request *sheets)
{
    const char *file = request->files[0];
    enum status status = look_at_roll(request, table, sheets->count);
    if (status == ALL_WELL)
        status = add_all(table, sheets);
    if (status != ALL_WELL)
        return status;
    bool written = request->is_new ? make_file(file, roll.bytes, roll.length) : replace(file, roll.bytes, roll.length);
    return written ? ALL_WELL : FAILED;
}

/* The same while nobody else adds to the roll, which is there. */
static enum status grow_alone(const struct request *request, const struct table *table, const struct request *sheets)
{
    struct lock lock;
    if (!lock_roll(request->files[0], &lock))
        return FAILED;
    enum status status = grow(request, table, sheets);
    unlock_roll(&lock);
    return status;
}

static void print_added(size_t added)
{
    print_name(stdout, roll.name);
    printf(": %zu added, ", added);
    print_sheet_count(stdout, roll.answer[2] + (uint32_t)added);
    fputc('\n', stdout);
}

static const char *wrong_with(const struct request *request)
{
    return is_standard_input(request->files[0]) ? "ROLL is missing" : NULL;
}

/* Sheets may take long to come, as from a terminal. So nobody is kept out while they do, and nothing is written before all are there;
 * but what is wrong with the roll is told first. */
static enum status run(const struct request *request, const struct table *table)
{
    struct request sheets = sheets_of(request);
    enum status status = look_at_roll(request, table, sheets.count);
    if (status == ALL_WELL)
        status = for_each_sheet(&sheets, table, lay_out);
    if (status == ALL_WELL)
        status = request->is_new ? grow(request, table, &sheets) : grow_alone(request, table, &sheets);
    if (status != ALL_WELL)
        return status;
    print_added(sheets.count);
    return is_written() ? ALL_WELL : FAILED;
}

const struct command add_command = {"add", ":fhnt:", help, wrong_with, run};
