/* cdx check: says of each sheet how many entries it has, or why and where it is refused.
 * The answers are those of document 01's "Refusal numbers". */
#include "glyphs.h"
#include "sheets.h"
#include "words.h"

#include <stdio.h>

static const char help[] =
    "cdx check -t TABLE [FILE..]   says of each sheet whether it is in order\n"
    "\n"
    "Each sheet has a line on standard output: how many entries it has; or line and column,\n"
    "the number of the refusal and what it means, and below it the line, with a caret under\n"
    "the place. Of a trait that stands twice it tells both places. A column is a character:\n"
    "a tab is one, a wide character is one.\n"
    "\n"
    "TABLE is a mode table or its text. No FILE, or `-`, is standard input.\n"
    "Status 1 if a sheet is refused, 2 if a file could not be read.\n"
    "docs/FORMAT.md tells what each refusal means, with examples.\n"
    "\n"
    "Example: cdx check -t course.txt sheets/*.cdx\n";

static enum status check(const struct request *request, const struct table *table, struct sheet *sheet)
{
    (void)request;
    if (!read_sheet(table, sheet))
        return refuse_sheet(stdout, table, sheet);
    print_name(stdout, sheet->name);
    fputs(": ", stdout);
    print_entries(stdout, sheet->answer[2]);
    fputc('\n', stdout);
    return ALL_WELL;
}

static const char *wrong_with(const struct request *request)
{
    (void)request;
    return NULL;
}

static enum status run(const struct request *request, const struct table *table)
{
    return for_each_sheet(request, table, check);
}

const struct command check_command = {"check", ":ht:", help, wrong_with, run};
