/* Holds the numbers of cdx.h to libgateway.a: what is at a limit is accepted and what is one past it refused, each refusal has its
 * number, and each kind and form of an entry, kind of a time and cell of a record too. Says what is not so, and then ends with status 1. */
#include "cdx.h"

#include <stdio.h>
#include <string.h>

static const char lab[] = "\1\3Lab\1\5Steps"; /* Lab in children mode, Steps in content mode */

static char text[2 * CDX_MAX_ROLL]; /* a sheet, a table or a roll in the making */
static size_t length;
static uint32_t cells[CDX_MAX_CELLS + CDX_CELLS]; /* an entry more than is allowed */
static const size_t cells_len = sizeof cells / sizeof *cells;
static uint32_t records[CDX_MAX_RECORD_CELLS + CDX_RECORD]; /* a record more than is allowed */
static const size_t records_len = sizeof records / sizeof *records;
static uint8_t out[2 * CDX_MAX_ROLL];
static int status;

static void add(const char *part, size_t times)
{
    for (size_t size = strlen(part); times > 0; times--, length += size)
        memcpy(text + length, part, size);
}

static void wrong(const char *what, unsigned due, unsigned got)
{
    printf("%s: the header says %u, the library %u\n", what, due, got);
    status = 1;
}

/* Reads the sheet in the making, and begins anew. */
static void sheet_is(enum cdx_number due, const char *what)
{
    uint32_t answer[CDX_ANSWER];
    cdx_sheet((const uint8_t *)lab, sizeof lab - 1, (const uint8_t *)text, length, cells, cells_len, answer);
    if (answer[0] != due)
        wrong(what, due, answer[0]);
    length = 0;
}

/* Reads the table in the making, and begins anew. */
static void table_is(enum cdx_number due, const char *what)
{
    uint32_t answer[CDX_ANSWER];
    cdx_table((const uint8_t *)text, length, answer);
    if (answer[0] != due)
        wrong(what, due, answer[0]);
    length = 0;
}

/* Writes the form of the sheet in the making to so much room, and begins anew. */
static void form_is(enum cdx_number due, size_t room, const char *what)
{
    uint32_t answer[CDX_ANSWER];
    cdx_write((const uint8_t *)lab, sizeof lab - 1, (const uint8_t *)text, length, cells, cells_len, out, room, answer);
    if (answer[0] != due)
        wrong(what, due, answer[0]);
    length = 0;
}

/* Reads the roll in the making, into so many record cells, and begins anew. */
static void roll_is(enum cdx_number due, size_t lent, const char *what)
{
    uint32_t answer[CDX_ANSWER];
    cdx_roll((const uint8_t *)lab, sizeof lab - 1, (const uint8_t *)text, length, records, lent, cells, cells_len, answer);
    if (answer[0] != due)
        wrong(what, due, answer[0]);
    length = 0;
}

/* Adds the sheet in the making behind the first n bytes of the output, with so much room, and begins anew. */
static void adding_is(enum cdx_number due, size_t room, uint64_t n, const char *what)
{
    uint32_t answer[CDX_ANSWER];
    cdx_add((const uint8_t *)lab, sizeof lab - 1, (const uint8_t *)text, length, out, room, n, cells, cells_len, answer);
    if (answer[0] != due)
        wrong(what, due, answer[0]);
    length = 0;
}

/* A sheet of so many bytes, most of them Content. Its canonical form has a line end more. */
static void add_steps(size_t bytes)
{
    add("<Steps>\n\t", 1);
    add("x", bytes - strlen("<Steps>\n\t\n</Steps>"));
    add("\n</Steps>", 1);
}

/* At the limit `past` is 0, and one past it 1. */
static void add_sheet(size_t past)
{
    add_steps(CDX_MAX_SHEET + past);
}

static void add_entries(size_t past) /* Concept, trait and items */
{
    add("<Lab n=[1", 1);
    add(",1", CDX_MAX_ENTRIES + past - 3);
    add("]/>", 1);
}

static void add_concepts(size_t past)
{
    add("<Lab>\n", CDX_MAX_CONCEPTS + past - 1);
    add("<Lab/>\n", 1);
    add("</Lab>\n", CDX_MAX_CONCEPTS + past - 1);
}

/* Lists in one another, and in the innermost another bracket, which counts as one. */
static void add_brackets(const char *innermost, size_t past)
{
    add("<Lab n=", 1);
    add("[", CDX_MAX_BRACKETS + past - 1);
    add(innermost, 1);
    add("]", CDX_MAX_BRACKETS + past - 1);
    add("/>", 1);
}

static void add_lists(size_t past)
{
    add_brackets("[]", past);
}

static void add_sets(size_t past)
{
    add_brackets("set[]", past);
}

static void add_maps(size_t past)
{
    add_brackets("map[]", past);
}

static void add_tuples(size_t past)
{
    add_brackets("(1)", past);
}

static void add_name(size_t past)
{
    add("<Lab ", 1);
    add("n", CDX_MAX_NAME + past);
    add("=1/>", 1);
}

/* A section of names of the greatest length, which all begin with this letter. */
static void add_section(char letter, size_t names)
{
    text[length++] = (char)names;
    for (size_t n = 0; n < names; n++) {
        const char start[] = {CDX_MAX_NAME, letter, (char)('a' + n / 26), (char)('a' + n % 26), 0};
        add(start, 1);
        add("x", CDX_MAX_NAME - 3);
    }
}

static void try_limits(void)
{
    static const struct {
        void (*add)(size_t past);
        enum cdx_number past;
        const char *what;
    } limits[] = {{add_sheet, CDX_SHEET_TOO_LONG, "CDX_MAX_SHEET"},
                  {add_entries, CDX_NO_ENTRY_LEFT, "CDX_MAX_ENTRIES"},
                  {add_concepts, CDX_TOO_DEEP, "CDX_MAX_CONCEPTS"},
                  {add_lists, CDX_TOO_DEEP, "CDX_MAX_BRACKETS of lists"},
                  {add_sets, CDX_TOO_DEEP, "CDX_MAX_BRACKETS of sets"},
                  {add_maps, CDX_TOO_DEEP, "CDX_MAX_BRACKETS of maps"},
                  {add_tuples, CDX_TOO_DEEP, "CDX_MAX_BRACKETS of tuples"},
                  {add_name, CDX_NAME, "CDX_MAX_NAME"}};
    for (size_t at = 0; at < sizeof limits / sizeof *limits; at++) {
        limits[at].add(0);
        sheet_is(CDX_OK, limits[at].what);
        limits[at].add(1);
        sheet_is(limits[at].past, limits[at].what);
    }
    add_section('A', CDX_MAX_SECTION);
    add_section('B', CDX_MAX_SECTION);
    if (length != CDX_MAX_TABLE)
        wrong("CDX_MAX_TABLE", CDX_MAX_TABLE, (unsigned)length);
    table_is(CDX_OK, "CDX_MAX_SECTION");
    add_section('A', 0);
    add_section('B', CDX_MAX_SECTION + 1);
    table_is(CDX_TABLE, "CDX_MAX_SECTION");
}

static void try_refusals(void)
{
    static const struct {
        enum cdx_number number;
        const char *sheet;
    } refused[] = {{CDX_BYTES, "\x7F"},          {CDX_NAME, "<lab/>"},     {CDX_UNLISTED, "<Other/>"},
                   {CDX_VALUE, "<Lab n=04/>"},   {CDX_DUE, "<Lab/>\nx"},   {CDX_CLOSING_NAME, "<Lab>\n</Steps>"},
                   {CDX_CUT, "<Lab>"},           {CDX_TRAIT_TWICE, "<Lab n=1 n=2/>"}};
    for (size_t at = 0; at < sizeof refused / sizeof *refused; at++) {
        add(refused[at].sheet, 1);
        sheet_is(refused[at].number, refused[at].sheet);
    }
    uint32_t answer[CDX_ANSWER];
    cdx_view((const uint8_t *)lab, 0, cells, 0, 0, answer);
    if (answer[0] != CDX_VIEW)
        wrong("CDX_VIEW", CDX_VIEW, answer[0]);
}

static void try_forms(void)
{
    static const char form[] = "<Lab />\n";
    for (size_t room = 0; room <= sizeof form; room++) {
        add("<Lab/>", 1);
        form_is(room < strlen(form) ? CDX_NO_ROOM : CDX_OK, room, "the room of a form");
    }
    if (memcmp(out, form, strlen(form)) != 0)
        wrong("a form", (unsigned char)form[0], out[0]);
    add_steps(CDX_MAX_SHEET - 1);
    form_is(CDX_OK, sizeof out, "a form of CDX_MAX_SHEET bytes");
    add_steps(CDX_MAX_SHEET);
    form_is(CDX_NO_ROOM, sizeof out, "a form of more than CDX_MAX_SHEET bytes");
}

static void try_rolls(void)
{
    for (size_t past = 0; past < 2; past++) {
        add("\n", CDX_MAX_ROLL + past);
        roll_is(past ? CDX_ROLL_TOO_LONG : CDX_OK, records_len, "CDX_MAX_ROLL");
        add("<Lab/>\n", CDX_MAX_SHEETS + past);
        roll_is(past ? CDX_TOO_MANY_SHEETS : CDX_OK, records_len, "CDX_MAX_SHEETS");
        add("<Lab/>\n", 2 + past);
        roll_is(past ? CDX_TOO_MANY_SHEETS : CDX_OK, 2 * CDX_RECORD, "CDX_RECORD");
    }
    add("x<Lab/>", 1);
    roll_is(CDX_BEFORE_BOUNDARY, records_len, "CDX_BEFORE_BOUNDARY");
}

static void try_records(void)
{
    static const uint32_t due[2][CDX_RECORD] = {
        {[CDX_SHEET_START] = 1, [CDX_SHEET_END] = 12, [CDX_SHEET_NUMBER] = CDX_OK, [CDX_SHEET_PLACE] = 11, [CDX_SHEET_COUNT] = 2},
        {[CDX_SHEET_START] = 12, [CDX_SHEET_END] = 20, [CDX_SHEET_NUMBER] = CDX_UNLISTED, [CDX_SHEET_PLACE] = 1, [CDX_SHEET_COUNT] = 0},
    };
    add("\n<Lab n=4/>\n<Other/>", 1);
    roll_is(CDX_OK, records_len, "a roll");
    for (size_t at = 0; at < 2 * CDX_RECORD; at++)
        if (records[at] != due[at / CDX_RECORD][at % CDX_RECORD])
            wrong("a cell of a record", due[at / CDX_RECORD][at % CDX_RECORD], records[at]);
}

static void try_adding(void)
{
    static const char form[] = "<Lab />\n\n";
    for (size_t room = 0; room <= sizeof form; room++) {
        add("<Lab/>", 1);
        adding_is(room < strlen(form) ? CDX_NO_ROOM : CDX_OK, room, 0, "the room of a form that is added");
    }
    for (size_t past = 0; past < 2; past++) {
        add("<Lab/>", 1);
        out[CDX_MAX_ROLL - strlen(form) + past - 1] = '\n';
        adding_is(past ? CDX_NO_ROOM : CDX_OK, sizeof out, CDX_MAX_ROLL - strlen(form) + past, "CDX_MAX_ROLL of a roll that is added to");
        add_steps(CDX_MAX_SHEET - 2 + past);
        adding_is(past ? CDX_NO_ROOM : CDX_OK, sizeof out, 0, "a form and its line end of CDX_MAX_SHEET bytes");
    }
    add("[a]\n<Lab/>", 1);
    adding_is(CDX_ROOT_ANNOTATED, sizeof out, 0, "CDX_ROOT_ANNOTATED");
    add("<Lab/>", 1);
    adding_is(CDX_BEFORE_BOUNDARY, sizeof out, 1, "CDX_BEFORE_BOUNDARY of a roll that is added to");
}

/* An entry of the sheet that was read last: number, kind, form, parent and count. */
static void entry_is(size_t number, enum cdx_kind kind, unsigned form, uint32_t parent, unsigned count)
{
    const uint32_t *entry = cells + number * CDX_CELLS;
    if (entry[CDX_KIND] != kind)
        wrong("a kind", kind, entry[CDX_KIND]);
    if (entry[CDX_FORM] != form)
        wrong("a form", form, entry[CDX_FORM]);
    if (entry[CDX_PARENT] != parent)
        wrong("a parent", parent, entry[CDX_PARENT]);
    if (entry[CDX_COUNT] != count)
        wrong("a count", count, entry[CDX_COUNT]);
    if (entry[CDX_NAME_START] > entry[CDX_NAME_END] || entry[CDX_SPAN_START] > entry[CDX_SPAN_END])
        wrong("the ends of an entry's name and span", entry[CDX_NAME_END], entry[CDX_SPAN_END]);
}

/* The length of such an entry's name. */
static void name_is(size_t number, size_t due)
{
    const uint32_t *entry = cells + number * CDX_CELLS;
    if (entry[CDX_NAME_END] - entry[CDX_NAME_START] != due)
        wrong("the length of a name", (unsigned)due, entry[CDX_NAME_END] - entry[CDX_NAME_START]);
}

static void try_entries(void)
{
    add("[a]\n<Lab a=\"\" b='b' c=true d=4 e=0.5 f=6e6 g=7/7 h=$H i=~i j=00000000-0000-0000-0000-000000000000 k=k: l={now}\n", 1);
    add("m=[12] n=set[14] o=map[key:15] p=(16)>\n<Lab/>\n<Steps>\n</Steps>\n</Lab>", 1);
    sheet_is(CDX_OK, "a sheet with every kind and form");
    entry_is(0, CDX_ANNOTATION, 0, CDX_TOP, 0);
    entry_is(1, CDX_CONCEPT, CDX_CHILDREN, CDX_TOP, 18);
    static const enum cdx_value_form forms[] = {CDX_STRING, CDX_CHARACTER, CDX_BOOLEAN, CDX_INTEGER, CDX_DECIMAL, CDX_SCIENTIFIC,
                                                CDX_FRACTION, CDX_PASCAL, CDX_CAMEL, CDX_UUID, CDX_IRI, CDX_TIME};
    size_t at = 2;
    for (; at < 2 + sizeof forms / sizeof *forms; at++)
        entry_is(at, CDX_TRAIT, forms[at - 2], 1, 0);
    static const enum cdx_value_form brackets[] = {CDX_LIST, CDX_SET, CDX_MAP, CDX_TUPLE};
    for (size_t kind = 0; kind < sizeof brackets / sizeof *brackets; kind++, at += 2) {
        entry_is(at, CDX_TRAIT, brackets[kind], 1, 1);
        entry_is(at + 1, CDX_ITEM, CDX_INTEGER, (uint32_t)at, 0);
        name_is(at + 1, brackets[kind] == CDX_MAP ? strlen("key") : 0);
    }
    entry_is(at, CDX_CONCEPT, CDX_SELF_CLOSED, 1, 0);
    entry_is(at + 1, CDX_CONCEPT, CDX_HAS_CONTENT, 1, 1);
    entry_is(at + 2, CDX_CONTENT, 0, (uint32_t)at + 1, 0);
}

static void try_times(void)
{
    static const struct {
        enum cdx_time_kind kind;
        const char *value;
    } times[] = {{CDX_NO_TIME, "now"},         {CDX_ZONED, "{2026-11-20T08:00Z}"}, {CDX_LOCAL, "{2026-11-20T08:00}"},
                 {CDX_DATE, "{2026-11-20}"},   {CDX_YEAR_MONTH, "{2026-11}"},      {CDX_MONTH_DAY, "{11-20}"},
                 {CDX_TIME_OF_DAY, "{08:00}"}, {CDX_DURATION, "{PT8H}"},           {CDX_RESERVED, "{now}"}};
    for (size_t at = 0; at < sizeof times / sizeof *times; at++) {
        uint32_t kind = cdx_time((const uint8_t *)times[at].value, strlen(times[at].value));
        if (kind != times[at].kind)
            wrong(times[at].value, times[at].kind, kind);
    }
}

int main(void)
{
    try_limits();
    try_refusals();
    try_forms();
    try_entries();
    try_times();
    try_rolls();
    try_records();
    try_adding();
    if (status == 0)
        puts("the limits, refusals, kinds, forms, times and records of include/cdx.h are the library's");
    return status;
}
