/* A roll of a file, read by the proved function under a mode table.
 * Document 01's "Rolls" says where its sheets are, and what their records have. */
#ifndef ROLLS_H
#define ROLLS_H

#include "cdx.h"
#include "command.h"
#include "tables.h"

#include <stdio.h>

/* A byte more than the longest roll: what is longer is refused for it. */
struct roll {
    const char *name; /* for messages */
    size_t length;
    uint8_t bytes[CDX_MAX_ROLL + 1];
    uint32_t answer[CDX_ANSWER]; /* of reading it */
    uint32_t records[CDX_MAX_RECORD_CELLS];
    uint32_t cells[CDX_MAX_CELLS];
};

/* Reads the file of a roll. */
bool load_roll(const char *file, struct roll *roll);

/* Reads the roll itself: there is a record for each sheet. Gives whether it is accepted; its sheets are answered each for itself. */
bool read_roll(const struct table *table, struct roll *roll);

/* Says why and where the roll as a whole is refused. */
enum status refuse_roll(FILE *out, const struct roll *roll);

#endif
