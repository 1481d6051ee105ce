/* The text of a mode table: lines such as `children Lab Course` and `content Steps`, and comments behind `#`.
 * It is of this command alone; the table that it says is document 01's. */
#ifndef TEXTS_H
#define TEXTS_H

#include "tables.h"

/* The bytes of the longest text. */
#define MAX_TEXT 65536

/* What is wrong with a text, and at which byte. */
struct fault {
    size_t at;
    const char *why;
};

/* Makes the table that a text says. Where it says none it gives false and the fault. */
bool table_of_text(const uint8_t *bytes, size_t length, struct table *table, struct fault *fault);

#endif
