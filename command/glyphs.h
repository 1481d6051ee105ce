/* Characters as a terminal shows them: how many columns each takes, and marks for what does not show.
 * The marks are those of docs/FORMAT.md: a byte in hex between two angle quotes. */
#ifndef GLYPHS_H
#define GLYPHS_H

#include <stdbool.h>
#include <stddef.h>
#include <stdint.h>
#include <stdio.h>

/* The columns from one tab stop to the next. */
#define TAB_STOP 4

/* Whether a byte is white space: a space, a tab or a byte of a line end. */
bool is_white(uint8_t byte);

/* The first character of some bytes. Bytes that are no UTF-8 count as a character each. */
struct glyph {
    size_t bytes;   /* how many it has */
    size_t columns; /* how many it takes */
    char shown[24]; /* what is printed for it */
};

/* The first character of the bytes, of which there is at least one, where it stands behind so many columns. */
struct glyph first_glyph(const uint8_t *bytes, size_t length, size_t columns);

/* Prints bytes as their glyphs. */
void print_glyphs(FILE *out, const uint8_t *bytes, size_t length);

/* Prints the name of a file as its glyphs. */
void print_name(FILE *out, const char *name);

#endif
