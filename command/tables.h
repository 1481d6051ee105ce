/* Mode tables: read from a file that has the table or its text, and printed as text.
 * Document 01's "The mode table" says when one is in order. */
#ifndef TABLES_H
#define TABLES_H

#include "cdx.h"
#include "command.h"

#include <stdio.h>

/* A mode table that is in order. */
struct table {
    size_t length;
    uint8_t bytes[CDX_MAX_TABLE];
};

/* Reads a file that has a mode table or the text of one. Where it has neither it says so on standard error. */
enum status load_table(const char *file, struct table *table);

/* Prints the text of a table: it reads back to the same table. */
void print_table(FILE *out, const struct table *table);

#endif
