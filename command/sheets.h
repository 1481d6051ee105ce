/* A sheet of a file, read and laid out by the proved functions under a mode table.
 * Document 01's "Entries", "Canonical form" and "Refusal numbers" say what they answer. */
#ifndef SHEETS_H
#define SHEETS_H

#include "cdx.h"
#include "command.h"
#include "tables.h"

#include <stdio.h>

/* A byte more than the longest sheet: what is longer is refused for it. */
struct sheet {
    const char *name; /* for messages */
    size_t length;
    uint8_t bytes[CDX_MAX_SHEET + 1];
    uint32_t answer[CDX_ANSWER]; /* of what was done last */
    uint32_t cells[CDX_MAX_CELLS];
};

/* A canonical form. */
struct form {
    size_t length;
    uint8_t bytes[CDX_MAX_SHEET];
};

/* What a command does with a sheet whose file was read. */
typedef enum status (*sheet_action)(const struct request *request, const struct table *table, struct sheet *sheet);

/* Reads the files that a request names, and acts on each sheet, until standard output takes no more. */
enum status for_each_sheet(const struct request *request, const struct table *table, sheet_action act);

/* Reads the sheet itself: its entries are in the cells. Gives whether it is accepted. */
bool read_sheet(const struct table *table, struct sheet *sheet);

/* Writes its canonical form. Gives whether it has one. */
bool write_form(const struct table *table, struct sheet *sheet, struct form *form);

/* Says why and where the sheet is refused; of a trait that stands twice both places. */
enum status refuse_sheet(FILE *out, const struct table *table, const struct sheet *sheet);

#endif
