/* cdx table: makes a mode table from its text, or prints the text of one.
 * Document 01's "The mode table" says what a table is; the text is of this command alone. */
#define _POSIX_C_SOURCE 200809L

#include "files.h"
#include "tables.h"

#include <stdio.h>
#include <unistd.h>

static const char help[] =
    "cdx table [FILE]      writes a mode table, which is binary, to standard output\n"
    "cdx table -d [FILE]   prints a mode table as text\n"
    "\n"
    "FILE has a mode table or its text. No FILE, or `-`, is standard input.\n"
    "\n"
    "The text has a line for some names in one mode, and as many such lines as you like:\n"
    "\n"
    "    # What a course is made of.\n"
    "    children Course Lab    # these hold Concepts\n"
    "    content Steps          # this holds text\n"
    "\n"
    "Names keep the rule for Concepts and stand in the table once; each mode has at most 64.\n"
    "Every -t takes the text as well, so the table itself is for other programs.\n"
    "\n"
    "Example: cdx table course.txt >course.table\n";

static const char *wrong_with(const struct request *request)
{
    if (request->count > 1)
        return "more than one FILE";
    if (!request->as_text && isatty(STDOUT_FILENO))
        return "a table is binary and not for a terminal; send it to a file, or ask for its text with -d";
    return NULL;
}

static enum status run(const struct request *request, const struct table *none)
{
    struct table table;
    (void)none;
    enum status status = load_table(request->files[0], &table);
    if (status != ALL_WELL)
        return status;
    if (request->as_text)
        print_table(stdout, &table);
    else
        fwrite(table.bytes, 1, table.length, stdout);
    return is_written() ? ALL_WELL : FAILED;
}

const struct command table_command = {"table", ":hd", help, wrong_with, run};
