/* Does one thing with a sheet or a roll, many times over: the program that tests/speed counts instructions of.
 *
 *     speed read|write|add|roll|each|table TABLE INPUT LENT TIMES
 *
 * TABLE and INPUT are files, LENT says how many entry cells are lent. INPUT is a sheet, which is read, or its form is written, or added to
 * a roll; or it is a roll, which is read, or each of its sheets is read by itself; or only TABLE is read. That is done TIMES times, each
 * time into the same rooms.
 * The last answer is printed: number, place and count.
 */
#include "cdx.h"

#include <stdio.h>
#include <stdlib.h>
#include <string.h>

/* A roll is added to behind so many bytes, which are line ends. */
enum { ADDED_BEHIND = 3 * CDX_MAX_ROLL / 4 };

static uint8_t table[CDX_MAX_TABLE + 1], input[CDX_MAX_ROLL + 1], out[CDX_MAX_ROLL];
static size_t table_len, input_len, lent, sheets;
static uint32_t cells[CDX_MAX_CELLS], records[CDX_MAX_RECORD_CELLS], answer[CDX_ANSWER];

static void read_sheet(void)
{
    cdx_sheet(table, table_len, input, input_len, cells, lent, answer);
}

static void write_form(void)
{
    cdx_write(table, table_len, input, input_len, cells, lent, out, CDX_MAX_SHEET, answer);
}

static void add_form(void)
{
    cdx_add(table, table_len, input, input_len, out, sizeof out, ADDED_BEHIND, cells, lent, answer);
}

static void read_roll(void)
{
    cdx_roll(table, table_len, input, input_len, records, CDX_MAX_RECORD_CELLS, cells, lent, answer);
}

static void read_each(void)
{
    for (const uint32_t *record = records; record < records + sheets * CDX_RECORD; record += CDX_RECORD)
        cdx_sheet(table, table_len, input + record[CDX_SHEET_START], record[CDX_SHEET_END] - record[CDX_SHEET_START], cells, lent, answer);
}

static void read_table(void)
{
    cdx_table(table, table_len, answer);
}

static const struct {
    const char *name;
    void (*run)(void);
} tasks[] = {{"read", read_sheet}, {"write", write_form}, {"add", add_form}, {"roll", read_roll}, {"each", read_each}, {"table", read_table}};

/* Puts a file into the room of an input, as far as both go, and gives its length. */
static size_t load(const char *path, uint8_t *room, size_t size)
{
    FILE *file = fopen(path, "rb");
    if (file == NULL) {
        perror(path);
        exit(2);
    }
    size_t length = fread(room, 1, size, file);
    fclose(file);
    return length;
}

int main(int argc, char **argv)
{
    size_t task = 0, count = sizeof tasks / sizeof *tasks;
    while (task < count && (argc != 6 || strcmp(argv[1], tasks[task].name) != 0))
        task++;
    if (task == count) {
        fprintf(stderr, "usage: speed read|write|add|roll|each|table TABLE INPUT LENT TIMES\n");
        return 2;
    }
    table_len = load(argv[2], table, sizeof table);
    input_len = load(argv[3], input, sizeof input);
    lent = strtoul(argv[4], NULL, 10);
    if (CDX_MAX_CELLS < lent) {
        fprintf(stderr, "speed: at most %d cells can be lent\n", CDX_MAX_CELLS);
        return 2;
    }
    memset(out, '\n', sizeof out);
    read_roll(); /* for the records of its sheets */
    sheets = answer[2];
    for (long times = strtol(argv[5], NULL, 10); 0 < times; times--)
        tasks[task].run();
    printf("%u %u %u\n", answer[0], answer[1], answer[2]);
    return 0;
}
