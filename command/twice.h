/* A trait that stands twice in a Concept: where it stood first.
 * Document 02, Six, has the place of the second name in the answer; whoever mends the sheet wants both. */
#ifndef TWICE_H
#define TWICE_H

#include "tables.h"

#include <stddef.h>
#include <stdint.h>

/* Of a sheet that is refused for a trait whose name stands again at a place, gives the place where it stood first. */
size_t first_place(const struct table *table, const uint8_t *sheet, size_t length, size_t again);

#endif
