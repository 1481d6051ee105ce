/* Files as the commands see them: read up to a limit, and messages where that fails.
 * The limits are document 01's sizes; what is longer is known by its one byte more. */
#ifndef FILES_H
#define FILES_H

#include <stdbool.h>
#include <stddef.h>
#include <stdint.h>

/* Whether a file's name stands for standard input. */
bool is_standard_input(const char *file);

/* What a file is called in messages. */
const char *called(const char *file);

/* Says on standard error what could not be done with a file, and why: errno has the reason. Gives false. */
bool cannot(const char *action, const char *name);

/* Whether there is a file of this name. Where none is found errno has the reason. */
bool is_there(const char *file);

/* Whether a file that is there is a regular one, which can be replaced. Where it is not, it says so. */
bool is_regular(const char *file);

/* Reads a file from its start into the room, as far as both go. Where that fails it says so and gives false. */
bool load(const char *file, uint8_t *room, size_t size, size_t *length);

/* Whether all that was printed is written. Where it is not, it says so, but for a reader who has left. */
bool is_written(void);

#endif
