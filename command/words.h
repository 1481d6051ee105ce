/* The numbers of an answer and of an entry in words.
 * They follow the sections "Entries" and "Refusal numbers" of document 01, document 02, Six, and 001 §18. */
#ifndef WORDS_H
#define WORDS_H

#include <stddef.h>
#include <stdint.h>
#include <stdio.h>

/* What an answer's number says, be it one of cdx.h or not. */
const char *refusal_in_words(uint32_t number);

/* What an entry is. */
const char *kind_in_words(uint32_t kind);

/* The form of a Concept, that of a value that is no time, and the kind of a time. */
const char *concept_form_in_words(uint32_t form);
const char *value_form_in_words(uint32_t form);
const char *time_kind_in_words(uint32_t kind);

/* Prints how many entries there are, and how many sheets. */
void print_entries(FILE *out, uint32_t entries);
void print_sheet_count(FILE *out, uint32_t sheets);

/* Says that a file is refused: where, why, and the line with a caret under the place. */
void print_refusal(FILE *out, const char *name, const uint8_t *bytes, size_t length, size_t at, uint32_t number, const char *why);

/* Says where a trait that stands again stood first: the place, and the line with a caret under it. */
void print_stood_first(FILE *out, const char *name, const uint8_t *bytes, size_t length, size_t at);

#endif
