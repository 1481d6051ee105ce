/* cdx format: the canonical form of sheets, on standard output or in place.
 * The form is document 01's "Canonical form"; a sheet that is refused has none, and its file stays as it is. */
#include "files.h"
#include "replace.h"
#include "sheets.h"

#include <stdio.h>
#include <string.h>

static const char help[] =
    "cdx format -t TABLE [FILE]      prints the canonical form of a sheet\n"
    "cdx format -t TABLE -w FILE..   puts the form of each sheet in its place\n"
    "cdx format -t TABLE -l FILE..   names the files that are not in their form; with -w too\n"
    "\n"
    "With -w a new file takes the place of the old one, with its owner and its mode; nothing\n"
    "is written where nothing changes, and a sheet that is refused stays as it is.\n"
    "\n"
    "TABLE is a mode table or its text. No FILE, or `-`, is standard input.\n"
    "Status 1 if a sheet is refused, 2 if a file could not be read or written.\n"
    "docs/FORMAT.md tells what the form is.\n"
    "\n"
    "Example: cdx format -t course.txt -l -w sheets/*.cdx\n";

static bool is_changed(const struct sheet *sheet, const struct form *form)
{
    return sheet->length != form->length || memcmp(sheet->bytes, form->bytes, form->length) != 0;
}

static enum status format(const struct request *request, const struct table *table, struct sheet *sheet)
{
    static struct form form;
    if (!write_form(table, sheet, &form))
        return refuse_sheet(stderr, table, sheet);
    if (!request->list && !request->in_place)
        fwrite(form.bytes, 1, form.length, stdout);
    else if (is_changed(sheet, &form)) {
        if (request->in_place && !replace(sheet->name, form.bytes, form.length))
            return FAILED;
        if (request->list)
            puts(sheet->name); /* as it is, for other programs */
    }
    return ALL_WELL;
}

static const char *wrong_with(const struct request *request)
{
    if (!request->list && !request->in_place && request->count > 1)
        return "more than one FILE, without -w or -l";
    for (size_t number = 0; number < request->count; number++)
        if (request->in_place && is_standard_input(request->files[number]))
            return "-w asks for a FILE, and standard input is none";
    return NULL;
}

static enum status run(const struct request *request, const struct table *table)
{
    return for_each_sheet(request, table, format);
}

const struct command format_command = {"format", ":ht:lw", help, wrong_with, run};
