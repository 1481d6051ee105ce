/* cdx.h: reading Codex sheets (.cdx) and rolls of them, writing a sheet's canonical form and adding it to a roll, for C.
 *
 * Link with libgateway.a. Every function takes any bytes and any room: there is nothing to check before a call, and a call
 * neither allocates nor keeps anything. What is lent must be there for its whole length, and what a function writes (cells, records,
 * out, answer, and the roll of cdx_add) must not overlap anything else that is lent in the same call.
 *
 * A pointer may not be null, also where its length is 0.
 */
#ifndef CDX_H
#define CDX_H

#include <stddef.h>
#include <stdint.h>

#ifdef __cplusplus
extern "C" {
#endif

/* The limits. What is past them is refused, so that no program needs more room than they say. */
#define CDX_MAX_SHEET 16384  /* bytes of a sheet */
#define CDX_MAX_ENTRIES 1024 /* entries of a sheet */
#define CDX_MAX_CONCEPTS 32  /* Concepts in one another, the root counting as one */
#define CDX_MAX_BRACKETS 8   /* lists, sets, maps and tuples in one another, the outermost counting as one */
#define CDX_MAX_NAME 32      /* bytes of a name */
#define CDX_MAX_SECTION 64   /* names in each of the two sections of a mode table */
#define CDX_MAX_ROLL 65536   /* bytes of a roll */
#define CDX_MAX_SHEETS 256   /* sheets in a roll */

/* The bytes of the longest mode table: a count for each section, and a length for each name. */
#define CDX_MAX_TABLE (2 * (1 + CDX_MAX_SECTION * (1 + CDX_MAX_NAME)))

/* Bytes of stack, of which no call takes more. That is measured, not proved; docs/C.md has it for each function. */
#define CDX_MAX_STACK 57344

/* An answer is so many numbers: what they are is said with each function. */
#define CDX_ANSWER 3

/* An answer's first number: CDX_OK, or why the input is refused. */
enum cdx_number {
    CDX_OK = 0,
    CDX_TABLE = 1,            /* the mode table is not in order */
    CDX_SHEET_TOO_LONG = 2,   /* the sheet has more than CDX_MAX_SHEET bytes */
    CDX_BYTES = 3,            /* bytes that no sheet may have: not UTF-8, or a control byte */
    CDX_NAME = 4,             /* a name breaks the name rule or is longer than CDX_MAX_NAME bytes */
    CDX_UNLISTED = 5,         /* a Concept's name is not in the mode table */
    CDX_VALUE = 6,            /* no kind of value fits; the place shows where inside a trait's value */
    CDX_DUE = 7,              /* something else was due here */
    CDX_CLOSING_NAME = 8,     /* a closing marker has another name than the open Concept */
    CDX_CUT = 9,              /* the input ends before the root is closed */
    CDX_TOO_DEEP = 10,        /* more than CDX_MAX_CONCEPTS Concepts, or CDX_MAX_BRACKETS lists, sets, maps and tuples, in one another */
    CDX_NO_ENTRY_LEFT = 11,   /* more entries than CDX_MAX_ENTRIES, or than there are cells lent for */
    CDX_NO_ROOM = 12,         /* the canonical form has more than CDX_MAX_SHEET bytes, or than there is room lent for */
    CDX_ROLL_TOO_LONG = 13,   /* the roll has more than CDX_MAX_ROLL bytes */
    CDX_BEFORE_BOUNDARY = 14, /* something stands before a roll's first sheet, or a roll to be added to does not end with a line end */
    CDX_TOO_MANY_SHEETS = 15, /* more sheets in a roll than CDX_MAX_SHEETS, or than there are records lent for */
    CDX_ROOT_ANNOTATED = 16,  /* the sheet to be added has an annotation before its root */
    CDX_VIEW = 17,            /* this entry cannot be viewed */
    CDX_TRAIT_TWICE = 18      /* a Concept has two traits of one name; the place is that of the second name */
};

/* An entry is so many cells, and these are its cells by their place in it. */
#define CDX_CELLS 8

/* Cells for the entries of every sheet. */
#define CDX_MAX_CELLS (CDX_MAX_ENTRIES * CDX_CELLS)

enum cdx_cell {
    CDX_KIND = 0,       /* an enum cdx_kind; 0 where there is no entry */
    CDX_FORM = 1,       /* of a Concept: enum cdx_concept_form; of a trait or an item: enum cdx_value_form; else 0 */
    CDX_PARENT = 2,     /* the number of the entry that this one belongs to, or CDX_TOP */
    CDX_COUNT = 3,      /* how many entries name this one as parent */
    CDX_NAME_START = 4, /* where its name starts and ends in the sheet, of an item of a map its key, quotes and all; */
    CDX_NAME_END = 5,   /*   without a name both are the start of the span */
    CDX_SPAN_START = 6, /* where its span starts in the sheet, which of a trait and an item is its value, */
    CDX_SPAN_END = 7    /*   and the place behind its last byte */
};

/* The parent of what stands at the top. */
#define CDX_TOP UINT32_C(4294967295)

enum cdx_kind { CDX_CONCEPT = 1, CDX_TRAIT = 2, CDX_ITEM = 3, CDX_ANNOTATION = 4, CDX_CONTENT = 5 };

enum cdx_concept_form { CDX_SELF_CLOSED = 1, CDX_CHILDREN = 2, CDX_HAS_CONTENT = 3 };

enum cdx_value_form {
    CDX_STRING = 1,
    CDX_CHARACTER = 2,
    CDX_BOOLEAN = 3,
    CDX_INTEGER = 4,
    CDX_DECIMAL = 5,
    CDX_SCIENTIFIC = 6,
    CDX_FRACTION = 7,
    CDX_PASCAL = 8, /* "$" and a name */
    CDX_CAMEL = 9,  /* "~" and a name */
    CDX_UUID = 10,
    CDX_IRI = 11,
    CDX_LIST = 12,
    CDX_TIME = 13, /* in braces; cdx_time tells its kind */
    CDX_SET = 14,
    CDX_MAP = 15, /* each item has a key, which is its name */
    CDX_TUPLE = 16
};

/* The kinds of a time. */
enum cdx_time_kind {
    CDX_NO_TIME = 0,
    CDX_ZONED = 1, /* date, time of day and zone */
    CDX_LOCAL = 2, /* date and time of day */
    CDX_DATE = 3,
    CDX_YEAR_MONTH = 4,
    CDX_MONTH_DAY = 5,
    CDX_TIME_OF_DAY = 6,
    CDX_DURATION = 7,
    CDX_RESERVED = 8 /* {now} or {today} */
};

/* A record of a roll is so many cells, and these are its cells by their place in it. */
#define CDX_RECORD 5

/* Cells for the records of every roll. */
#define CDX_MAX_RECORD_CELLS (CDX_MAX_SHEETS * CDX_RECORD)

enum cdx_record_cell {
    CDX_SHEET_START = 0,  /* where the sheet starts in the roll, */
    CDX_SHEET_END = 1,    /*   and the place behind its last byte */
    CDX_SHEET_NUMBER = 2, /* what cdx_sheet answers for its bytes: an enum cdx_number, */
    CDX_SHEET_PLACE = 3,  /*   a place in the sheet, which is its length where the number is CDX_OK, */
    CDX_SHEET_COUNT = 4   /*   and how many entries it has */
};

/* Reads a mode table.
 * answer: CDX_OK, the table's length and how many names it has; or CDX_TABLE, the place of the fault and 0. */
void cdx_table(const uint8_t *table, size_t table_len, uint32_t answer[3]);

/* Reads a sheet under a mode table, and writes its entries into the cells lent.
 * cells_len counts cells, not bytes; there is room for cells_len / CDX_CELLS entries, and no sheet has more than CDX_MAX_ENTRIES.
 * answer: CDX_OK, the sheet's length and how many entries it has; all cells behind them are 0. Or the number of a
 * refusal, its place (in the table for CDX_TABLE, else in the sheet) and 0; then every cell is 0. */
void cdx_sheet(const uint8_t *table, size_t table_len, const uint8_t *sheet, size_t sheet_len, uint32_t *cells, size_t cells_len, uint32_t answer[3]);

/* Finds the part of a sheet that an entry's span names. The cells may be any, not only those that cdx_sheet wrote.
 * answer: CDX_OK, and where the part starts and ends in the sheet; or CDX_VIEW, 0 and 0, where the entry lies not wholly in the
 * cells, has no kind, or its span is reversed or ends outside of the sheet. */
void cdx_view(const uint8_t *sheet, size_t sheet_len, const uint32_t *cells, size_t cells_len, uint64_t entry, uint32_t answer[3]);

/* Tells the kind of a time from its bytes, braces and all, as the span of an entry of the form CDX_TIME names them. They may be any bytes.
 * Answers an enum cdx_time_kind, which is CDX_NO_TIME where the bytes are not exactly one time. */
uint32_t cdx_time(const uint8_t *value, size_t value_len);

/* Writes the canonical form of a sheet that reads without refusal. The cells are lent to the reading, as to cdx_sheet, and are all 0
 * after every answer. A form of more than CDX_MAX_SHEET bytes is refused, so that more room than that is of no use.
 * answer: CDX_OK, 0 and how many bytes were written, from the first of out on; those behind them are as they came. Or the number of a
 * refusal, its place and 0: as cdx_sheet answers, and where it accepts CDX_NO_ROOM, 0 and 0. Then all of out is as it came. */
void cdx_write(const uint8_t *table, size_t table_len, const uint8_t *sheet, size_t sheet_len, uint32_t *cells, size_t cells_len,
               uint8_t *out, size_t out_len, uint32_t answer[3]);

/* Reads a roll under a mode table, and writes a record of each of its sheets into the record cells lent. A sheet begins where a line
 * begins with "<" and an upper case letter, and ends where the next one begins; a sheet that is refused hurts no other.
 * The cells are lent to the reading of each sheet, as to cdx_sheet, and are all 0 after every answer. records_len and cells_len count
 * cells, not bytes; there is room for records_len / CDX_RECORD records, and no roll has more than CDX_MAX_SHEETS.
 * answer: CDX_OK, the roll's length and how many records there are; all record cells behind them are 0. Or CDX_ROLL_TOO_LONG,
 * CDX_TABLE, CDX_BEFORE_BOUNDARY or CDX_TOO_MANY_SHEETS, its place (in the table for CDX_TABLE, else in the roll) and 0; then every
 * record cell is 0. */
void cdx_roll(const uint8_t *table, size_t table_len, const uint8_t *roll, size_t roll_len, uint32_t *records, size_t records_len,
              uint32_t *cells, size_t cells_len, uint32_t answer[3]);

/* Adds the canonical form of a sheet that reads without refusal, and one further line end, behind the first n bytes of a roll.
 * roll_len is all the room that is lent, of which n bytes are in use; n may be any number. A roll begins empty, with n = 0, and the count
 * of one answer is the n of the next call. The cells are lent to the reading, as to cdx_sheet, and are all 0 after every answer.
 * answer: CDX_OK, 0 and how many bytes of the roll are in use now; those before n and those behind are as they came. Or the number of a
 * refusal, its place and 0; then all of the roll is as it came. Refusals are those of cdx_sheet; then CDX_ROOT_ANNOTATED, at the "["; then
 * CDX_NO_ROOM, at 0, where the form and its line end have more than CDX_MAX_SHEET bytes, or the new length is more than roll_len or
 * CDX_MAX_ROLL; then CDX_BEFORE_BOUNDARY, at n, where n is not 0 and the byte before it is no line end (LF). */
void cdx_add(const uint8_t *table, size_t table_len, const uint8_t *sheet, size_t sheet_len, uint8_t *roll, size_t roll_len, uint64_t n,
             uint32_t *cells, size_t cells_len, uint32_t answer[3]);

#ifdef __cplusplus
}
#endif

#endif
