/* Answers requests on standard input, one a line, with the functions of libgateway.a. The lines are those of
 * tests/independent/README.md, so that the answers of both programs can be compared as text.
 *
 * A call gets copies of the request's bytes and cells, and cells, records, an output and an answer full of junk, each between guards. A
 * call that changes what it may not, or leaves what it may not, has a line that begins with `broken` for its answer.
 *
 * Status 0, or 2 where a line could not be read, an answer not be written, or there is no memory. */
#define _POSIX_C_SOURCE 200809L

#include "cdx.h"

#include <stdbool.h>
#include <stdio.h>
#include <stdlib.h>
#include <string.h>

static void fail(const char *why)
{
    fprintf(stderr, "answer: %s\n", why);
    exit(2);
}

static void *memory(size_t size)
{
    void *block = malloc(size);
    if (block == NULL)
        fail("no memory left");
    return block;
}

/* ---- Loans */

enum { GUARD = 64 };

/* `size` bytes to lend, between two guards of GUARD bytes, and all these bytes as they were before the call. */
struct loan {
    uint8_t *block;
    uint8_t *before;
    size_t size;
};

/* Bytes that look like nothing that is written, and like no neighbour of theirs. */
static void fill_with_junk(uint8_t *bytes, size_t size)
{
    for (size_t at = 0; at < size; at++)
        bytes[at] = (uint8_t)(0xA5 + 7 * at);
}

/* Lends a copy of the bytes, or junk where they are NULL. */
static struct loan lend(const void *bytes, size_t size)
{
    if (size > SIZE_MAX / 2)
        fail("no memory left");
    size_t whole = GUARD + size + GUARD;
    struct loan loan = {memory(whole), memory(whole), size};
    fill_with_junk(loan.block, whole);
    if (bytes != NULL)
        memcpy(loan.block + GUARD, bytes, size);
    memcpy(loan.before, loan.block, whole);
    return loan;
}

/* Lends so many u32 cells: copies of these, or junk where they are NULL. */
static struct loan lend_cells(const uint32_t *cells, size_t count)
{
    if (count > SIZE_MAX / 2 / sizeof *cells)
        fail("no memory left");
    return lend(cells, count * sizeof *cells);
}

static uint8_t *bytes_of(struct loan loan)
{
    return loan.block + GUARD;
}

static uint32_t *cells_of(struct loan loan)
{
    return (uint32_t *)(void *)(loan.block + GUARD);
}

static bool guards_kept(struct loan loan)
{
    size_t behind = GUARD + loan.size;
    return memcmp(loan.block, loan.before, GUARD) == 0 && memcmp(loan.block + behind, loan.before + behind, GUARD) == 0;
}

/* Whether all from this byte of the loan on is as it was, and its guards too. */
static bool kept_from(struct loan loan, size_t first)
{
    size_t at = GUARD + first;
    return guards_kept(loan) && memcmp(loan.block + at, loan.before + at, loan.size - first) == 0;
}

static bool all_kept(struct loan loan)
{
    return kept_from(loan, 0);
}

/* Whether all but the bytes from `start` up to `end` is as it was, and the guards too. */
static bool kept_around(struct loan loan, size_t start, size_t end)
{
    return kept_from(loan, end) && memcmp(loan.block, loan.before, GUARD + start) == 0;
}

static void give_back(struct loan loan)
{
    free(loan.block);
    free(loan.before);
}

/* ---- Words of a request */

/* The bytes or cells that words of a request name. */
struct input {
    void *items;
    size_t count;
};

/* Takes the next word from what is left of a request; it is empty where there is none. */
static char *next_word(char **rest)
{
    const char *spaces = " \t\n\v\f\r";
    char *word = *rest + strspn(*rest, spaces);
    char *end = word + strcspn(word, spaces);
    *rest = *end == 0 ? end : end + 1;
    *end = 0;
    return word;
}

/* A number of one or more digits, at most `most`. */
static bool read_number(const char *word, uint64_t most, uint64_t *number)
{
    *number = 0;
    for (const char *at = word; *at != 0; at++) {
        if (*at < '0' || *at > '9')
            return false;
        uint64_t digit = (uint64_t)(*at - '0');
        if (*number > (most - digit) / 10)
            return false;
        *number = *number * 10 + digit;
    }
    return *word != 0;
}

/* A hex digit's value, or -1. */
static int digit_value(char digit)
{
    if (digit >= '0' && digit <= '9')
        return digit - '0';
    if (digit >= 'a' && digit <= 'f')
        return digit - 'a' + 10;
    if (digit >= 'A' && digit <= 'F')
        return digit - 'A' + 10;
    return -1;
}

/* Bytes from pairs of hex digits; "-" is no bytes. */
static bool read_bytes(const char *word, struct input *bytes)
{
    size_t digits = strcmp(word, "-") == 0 ? 0 : strlen(word);
    uint8_t *to = bytes->items = memory(digits / 2 + 1);
    bytes->count = digits / 2;
    for (size_t at = 0; at < bytes->count; at++) {
        int high = digit_value(word[2 * at]), low = digit_value(word[2 * at + 1]);
        if (high < 0 || low < 0)
            return false;
        to[at] = (uint8_t)(high * 16 + low);
    }
    return *word != 0 && digits % 2 == 0;
}

/* The cells that are left of a request. */
static bool read_cells(char **rest, struct input *cells)
{
    uint32_t *to = cells->items = memory((strlen(*rest) / 2 + 1) * sizeof *to);
    for (char *word = next_word(rest); *word != 0; word = next_word(rest)) {
        uint64_t number;
        if (!read_number(word, UINT32_MAX, &number))
            return false;
        to[cells->count++] = (uint32_t)number;
    }
    return true;
}

/* ---- Answers */

static void print_answer(const uint32_t answer[CDX_ANSWER])
{
    printf("%u %u %u", (unsigned)answer[0], (unsigned)answer[1], (unsigned)answer[2]);
}

/* Number, place, count. */
static void answer_table(struct input table)
{
    struct loan lent_table = lend(table.items, table.count), answer = lend_cells(NULL, CDX_ANSWER);
    cdx_table(bytes_of(lent_table), table.count, cells_of(answer));
    if (!all_kept(lent_table))
        printf("broken: cdx_table changed the table or its guards");
    else if (!guards_kept(answer))
        printf("broken: cdx_table wrote outside of the answer");
    else
        print_answer(cells_of(answer));
    give_back(lent_table);
    give_back(answer);
}

/* The cells up to the last that is not zero. */
static void print_cells(const uint32_t *cells, size_t count)
{
    while (count > 0 && cells[count - 1] == 0)
        count--;
    for (size_t at = 0; at < count; at++)
        printf(" %u", (unsigned)cells[at]);
}

/* Number, place, count, and the cells. */
static void answer_sheet(struct input table, struct input sheet, size_t lent)
{
    struct loan lent_table = lend(table.items, table.count), lent_sheet = lend(sheet.items, sheet.count);
    struct loan cells = lend_cells(NULL, lent), answer = lend_cells(NULL, CDX_ANSWER);
    cdx_sheet(bytes_of(lent_table), table.count, bytes_of(lent_sheet), sheet.count, cells_of(cells), lent, cells_of(answer));
    if (!all_kept(lent_table))
        printf("broken: cdx_sheet changed the table or its guards");
    else if (!all_kept(lent_sheet))
        printf("broken: cdx_sheet changed the sheet or its guards");
    else if (!guards_kept(cells))
        printf("broken: cdx_sheet wrote outside of the cells");
    else if (!guards_kept(answer))
        printf("broken: cdx_sheet wrote outside of the answer");
    else {
        print_answer(cells_of(answer));
        print_cells(cells_of(cells), lent);
    }
    give_back(lent_table);
    give_back(lent_sheet);
    give_back(cells);
    give_back(answer);
}

static void print_bytes(const uint8_t *bytes, size_t size)
{
    printf(" %s", size == 0 ? "-" : "");
    for (size_t at = 0; at < size; at++)
        printf("%02x", bytes[at]);
}

/* Number, place, count, and the form, which is empty where it is refused. Behind the form the output must be as it came. */
static void print_form(const uint32_t answer[CDX_ANSWER], struct loan out)
{
    if (answer[2] > out.size)
        printf("broken: cdx_write says that it wrote %u bytes to room for %zu", (unsigned)answer[2], out.size);
    else if (!kept_from(out, answer[2]))
        printf("broken: cdx_write changed more of the output than the %u bytes of its answer", (unsigned)answer[2]);
    else {
        print_answer(answer);
        print_bytes(bytes_of(out), answer[2]);
    }
}

static bool all_zero(const uint32_t *cells, size_t count)
{
    while (count > 0 && cells[count - 1] == 0)
        count--;
    return count == 0;
}

static void answer_form(struct input table, struct input sheet, size_t lent, size_t room)
{
    struct loan lent_table = lend(table.items, table.count), lent_sheet = lend(sheet.items, sheet.count);
    struct loan cells = lend_cells(NULL, lent), out = lend(NULL, room), answer = lend_cells(NULL, CDX_ANSWER);
    cdx_write(bytes_of(lent_table), table.count, bytes_of(lent_sheet), sheet.count, cells_of(cells), lent, bytes_of(out), room,
              cells_of(answer));
    if (!all_kept(lent_table))
        printf("broken: cdx_write changed the table or its guards");
    else if (!all_kept(lent_sheet))
        printf("broken: cdx_write changed the sheet or its guards");
    else if (!guards_kept(cells))
        printf("broken: cdx_write wrote outside of the cells");
    else if (!all_zero(cells_of(cells), lent))
        printf("broken: cdx_write left a cell that is not zero");
    else if (!guards_kept(answer))
        printf("broken: cdx_write wrote outside of the answer");
    else
        print_form(cells_of(answer), out);
    give_back(lent_table);
    give_back(lent_sheet);
    give_back(cells);
    give_back(out);
    give_back(answer);
}

/* Number, 0, the part's length, and the part; a refusal is printed as it came, with no part. */
static void print_part(const uint32_t answer[CDX_ANSWER], struct input sheet)
{
    uint32_t start = answer[1], end = answer[2];
    if (answer[0] != CDX_OK) {
        print_answer(answer);
        printf(" -");
    } else if (start > end || end > sheet.count) {
        printf("broken: cdx_view named the part from %u to %u", (unsigned)start, (unsigned)end);
    } else {
        printf("0 0 %u", (unsigned)(end - start));
        print_bytes((const uint8_t *)sheet.items + start, end - start);
    }
}

static void answer_view(struct input sheet, uint64_t entry, struct input cells)
{
    struct loan lent_sheet = lend(sheet.items, sheet.count), lent_cells = lend_cells(cells.items, cells.count);
    struct loan answer = lend_cells(NULL, CDX_ANSWER);
    cdx_view(bytes_of(lent_sheet), sheet.count, cells_of(lent_cells), cells.count, entry, cells_of(answer));
    if (!all_kept(lent_sheet))
        printf("broken: cdx_view changed the sheet or its guards");
    else if (!all_kept(lent_cells))
        printf("broken: cdx_view changed the cells or their guards");
    else if (!guards_kept(answer))
        printf("broken: cdx_view wrote outside of the answer");
    else
        print_part(cells_of(answer), sheet);
    give_back(lent_sheet);
    give_back(lent_cells);
    give_back(answer);
}

/* The number of the kind. */
static void answer_time(struct input value)
{
    struct loan lent_value = lend(value.items, value.count);
    uint32_t kind = cdx_time(bytes_of(lent_value), value.count);
    if (!all_kept(lent_value))
        printf("broken: cdx_time changed the value or its guards");
    else
        printf("%u", (unsigned)kind);
    give_back(lent_value);
}

/* Number, place, count, and the records. */
static void answer_roll(struct input table, struct input roll, size_t room, size_t lent)
{
    struct loan lent_table = lend(table.items, table.count), lent_roll = lend(roll.items, roll.count);
    struct loan records = lend_cells(NULL, room), cells = lend_cells(NULL, lent), answer = lend_cells(NULL, CDX_ANSWER);
    cdx_roll(bytes_of(lent_table), table.count, bytes_of(lent_roll), roll.count, cells_of(records), room, cells_of(cells), lent,
             cells_of(answer));
    if (!all_kept(lent_table))
        printf("broken: cdx_roll changed the table or its guards");
    else if (!all_kept(lent_roll))
        printf("broken: cdx_roll changed the roll or its guards");
    else if (!guards_kept(records))
        printf("broken: cdx_roll wrote outside of the records");
    else if (!guards_kept(cells))
        printf("broken: cdx_roll wrote outside of the cells");
    else if (!all_zero(cells_of(cells), lent))
        printf("broken: cdx_roll left an entry cell that is not zero");
    else if (!guards_kept(answer))
        printf("broken: cdx_roll wrote outside of the answer");
    else {
        print_answer(cells_of(answer));
        print_cells(cells_of(records), room);
    }
    give_back(lent_table);
    give_back(lent_roll);
    give_back(records);
    give_back(cells);
    give_back(answer);
}

/* Lends so many bytes for a roll: those of the request, as far as there is room for them, and behind them bytes FF. */
static struct loan lend_roll(struct input roll, size_t room)
{
    uint8_t *bytes = memory(room + 1);
    memset(bytes, 0xFF, room);
    memcpy(bytes, roll.items, roll.count < room ? roll.count : room);
    struct loan loan = lend(bytes, room);
    free(bytes);
    return loan;
}

/* Number, place, count, and the bytes added, which are none where it is refused. Before and behind them the roll must be as it came. */
static void print_added(const uint32_t answer[CDX_ANSWER], uint64_t n, struct loan roll)
{
    size_t start = answer[0] == CDX_OK ? n : 0, end = answer[2];
    if (start > end || end > roll.size)
        printf("broken: cdx_add says that it added the bytes from %zu to %zu to room for %zu", start, end, roll.size);
    else if (!kept_around(roll, start, end))
        printf("broken: cdx_add changed more of the roll than the bytes from %zu to %zu", start, end);
    else {
        print_answer(answer);
        print_bytes(bytes_of(roll) + start, end - start);
    }
}

static void answer_add(struct input table, struct input sheet, size_t lent, struct input roll, uint64_t n, size_t room)
{
    struct loan lent_table = lend(table.items, table.count), lent_sheet = lend(sheet.items, sheet.count), lent_roll = lend_roll(roll, room);
    struct loan cells = lend_cells(NULL, lent), answer = lend_cells(NULL, CDX_ANSWER);
    cdx_add(bytes_of(lent_table), table.count, bytes_of(lent_sheet), sheet.count, bytes_of(lent_roll), room, n, cells_of(cells), lent,
            cells_of(answer));
    if (!all_kept(lent_table))
        printf("broken: cdx_add changed the table or its guards");
    else if (!all_kept(lent_sheet))
        printf("broken: cdx_add changed the sheet or its guards");
    else if (!guards_kept(cells))
        printf("broken: cdx_add wrote outside of the cells");
    else if (!all_zero(cells_of(cells), lent))
        printf("broken: cdx_add left a cell that is not zero");
    else if (!guards_kept(answer))
        printf("broken: cdx_add wrote outside of the answer");
    else
        print_added(cells_of(answer), n, lent_roll);
    give_back(lent_table);
    give_back(lent_sheet);
    give_back(lent_roll);
    give_back(cells);
    give_back(answer);
}

/* The room of a form, which is the longest form's unless the request gives it as its last word. */
static bool read_room(char **rest, uint64_t *room)
{
    const char *word = next_word(rest);
    *room = CDX_MAX_SHEET;
    return *word == 0 || (read_number(word, SIZE_MAX, room) && *next_word(rest) == 0);
}

static bool read_size(const char *word, uint64_t *size)
{
    return read_number(word, SIZE_MAX, size);
}

/* Answers the request that stands in the line, or says that there is none. */
static void answer_line(char *line)
{
    struct input first = {NULL, 0}, second = {NULL, 0}, third = {NULL, 0};
    uint64_t number, room, end;
    const char *kind = next_word(&line);
    if (strcmp(kind, "table") == 0 && read_bytes(next_word(&line), &first) && *next_word(&line) == 0)
        answer_table(first);
    else if (strcmp(kind, "sheet") == 0 && read_bytes(next_word(&line), &first) && read_bytes(next_word(&line), &second) &&
             read_size(next_word(&line), &number) && *next_word(&line) == 0)
        answer_sheet(first, second, (size_t)number);
    else if (strcmp(kind, "form") == 0 && read_bytes(next_word(&line), &first) && read_bytes(next_word(&line), &second) &&
             read_size(next_word(&line), &number) && read_room(&line, &room))
        answer_form(first, second, (size_t)number, (size_t)room);
    else if (strcmp(kind, "view") == 0 && read_bytes(next_word(&line), &first) &&
             read_number(next_word(&line), UINT64_MAX, &number) && read_cells(&line, &second))
        answer_view(first, number, second);
    else if (strcmp(kind, "time") == 0 && read_bytes(next_word(&line), &first) && *next_word(&line) == 0)
        answer_time(first);
    else if (strcmp(kind, "roll") == 0 && read_bytes(next_word(&line), &first) && read_bytes(next_word(&line), &second) &&
             read_size(next_word(&line), &room) && read_size(next_word(&line), &number) && *next_word(&line) == 0)
        answer_roll(first, second, (size_t)room, (size_t)number);
    else if (strcmp(kind, "add") == 0 && read_bytes(next_word(&line), &first) && read_bytes(next_word(&line), &second) &&
             read_size(next_word(&line), &number) && read_bytes(next_word(&line), &third) &&
             read_number(next_word(&line), UINT64_MAX, &end) && read_size(next_word(&line), &room) && *next_word(&line) == 0)
        answer_add(first, second, (size_t)number, third, end, (size_t)room);
    else
        printf("not a request");
    free(first.items);
    free(second.items);
    free(third.items);
}

int main(void)
{
    char *line = NULL;
    size_t room = 0;
    ssize_t length;
    setvbuf(stdout, NULL, _IOLBF, 0); /* an answer is out before the next request is read */
    while ((length = getline(&line, &room, stdin)) >= 0) {
        if (strlen(line) != (size_t)length)
            printf("not a request");
        else
            answer_line(line);
        putchar('\n');
        if (ferror(stdout))
            fail("an answer could not be written");
    }
    if (!feof(stdin))
        fail("a line could not be read");
    free(line);
    return 0;
}
