/* A file replaced by another, or made: whoever opens it finds the old bytes or the new ones, never half.
 * It keeps the rolls and sheets of document 01 whole where a disk is full or a machine stops. */
#ifndef REPLACE_H
#define REPLACE_H

#include <stdbool.h>
#include <stddef.h>
#include <stdint.h>

/* Puts a new file with these bytes in the place of an old one, with its owner and mode. Behind a link it is the file that the link
 * names. Where that fails it says so, gives false, and the old file is as it was; but a flush of the folder comes last, and where
 * that one fails the new file has its place, though perhaps not on the disk. */
bool replace(const char *file, const uint8_t *bytes, size_t length);

/* Makes a file with these bytes where none has this name, with the mode of any new file. It is there with all its bytes or not at all,
 * and where another has made one meanwhile, that one stays as it is. Where it fails it says so and gives false; of the folder's flush
 * the same holds. */
bool make_file(const char *file, const uint8_t *bytes, size_t length);

#endif
