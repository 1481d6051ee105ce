/* Places for a person: a byte's line and column, and that line with a caret under the byte.
 * Lines are document 01's: they end with LF or CR LF. */
#ifndef PLACES_H
#define PLACES_H

#include <stddef.h>
#include <stdint.h>
#include <stdio.h>

/* Where a byte stands. Lines and columns count from 1, and each character is a column, a tab and a wide one too. */
struct place {
    size_t line, column;
    size_t start, end; /* of the line, without its line end */
};

/* The place of a byte, or of the end where `at` is the length. */
struct place place_of(const uint8_t *bytes, size_t length, size_t at);

/* Prints where a byte of a file stands: the file's name, the line and the column. */
void print_place(FILE *out, const char *name, const uint8_t *bytes, size_t length, size_t at);

/* Prints the line of a place, cut around it where it is long, and below it a caret under the place. */
void print_line(FILE *out, const uint8_t *bytes, size_t length, size_t at);

#endif
