/* Measures how much stack each function of libgateway.a takes: it is called on a stack that was painted before, and what is left of the
 * paint is looked at behind the call.
 *
 *     stack FUNCTION KB..
 *
 * Each function of cdx.h is named, and how many KB it may take. The sheets are the smallest, the deepest, the widest and the largest that
 * are allowed, some of one too many, and the deepest cut and hurt at every byte. Prints for each function what it took at most, and for
 * what. Status 1 where that is more than it may, where an answer is another than is due, or where CDX_MAX_STACK is not the largest of
 * these numbers; 2 for wrong use. */
#define _XOPEN_SOURCE 700

#include "cdx.h"

#include <stdbool.h>
#include <stdio.h>
#include <stdlib.h>
#include <string.h>
#include <ucontext.h>

static int status;

/* ---- The painted stack */

enum { WORDS = 32 * 1024 };
static const uint64_t paint = UINT64_C(0xA5C3A5C3A5C3A5C3);

static uint64_t stack[WORDS];
static ucontext_t caller, callee;
static void (*called)(void);
static size_t bare;  /* so many words have their paint, from the far end on, which is the first: a stack grows downwards */
static size_t taken; /* so many bytes did the last call take */

/* Nothing is called behind the call, since that would take stack too. */
static void call_and_look(void)
{
    called();
    const volatile uint64_t *end = stack;
    while (*end == paint)
        end++;
    bare = (size_t)(end - stack);
    taken = (size_t)((const uint8_t *)__builtin_frame_address(0) - (const uint8_t *)end);
}

static void call_on_paint(void (*function)(void))
{
    for (; bare < WORDS; bare++)
        stack[bare] = paint;
    called = function;
    getcontext(&callee);
    callee.uc_stack.ss_sp = stack;
    callee.uc_stack.ss_size = sizeof stack;
    callee.uc_link = &caller;
    makecontext(&callee, call_and_look, 0);
    swapcontext(&caller, &callee);
}

/* ---- What is lent, and the calls */

static uint8_t table[2 * CDX_MAX_TABLE], text[2 * CDX_MAX_ROLL], room[CDX_MAX_ROLL];
static size_t table_len, text_len, entry;
static uint32_t cells[CDX_MAX_CELLS], records[CDX_MAX_RECORD_CELLS], answer[CDX_ANSWER];

static void call_table(void)
{
    cdx_table(table, table_len, answer);
}

static void call_sheet(void)
{
    cdx_sheet(table, table_len, text, text_len, cells, CDX_MAX_CELLS, answer);
}

static void call_view(void)
{
    cdx_view(text, text_len, cells, CDX_MAX_CELLS, entry, answer);
}

static void call_time(void)
{
    answer[0] = cdx_time(text, text_len);
}

static void call_write(void)
{
    cdx_write(table, table_len, text, text_len, cells, CDX_MAX_CELLS, room, CDX_MAX_SHEET, answer);
}

static void call_roll(void)
{
    cdx_roll(table, table_len, text, text_len, records, CDX_MAX_RECORD_CELLS, cells, CDX_MAX_CELLS, answer);
}

static void call_add(void)
{
    cdx_add(table, table_len, text, text_len, room, sizeof room, 0, cells, CDX_MAX_CELLS, answer);
}

enum { TABLE, SHEET, VIEW, TIME, WRITE, ROLL, ADD, FUNCTIONS };

static struct {
    const char *name;
    void (*call)(void);
    size_t most;          /* bytes, by what it was called with so far, */
    const char *most_for; /*   and by which input */
    size_t allowed;
} functions[FUNCTIONS] = {
    [TABLE] = {.name = "cdx_table", .call = call_table}, [SHEET] = {.name = "cdx_sheet", .call = call_sheet},
    [VIEW] = {.name = "cdx_view", .call = call_view},    [TIME] = {.name = "cdx_time", .call = call_time},
    [WRITE] = {.name = "cdx_write", .call = call_write}, [ROLL] = {.name = "cdx_roll", .call = call_roll},
    [ADD] = {.name = "cdx_add", .call = call_add},
};

static void measure(int function, const char *input)
{
    call_on_paint(functions[function].call);
    if (functions[function].most < taken) {
        functions[function].most = taken;
        functions[function].most_for = input;
    }
}

static void measure_due(int function, const char *input, uint32_t due)
{
    measure(function, input);
    if (answer[0] != due) {
        printf("%s: %s is answered with %u, and %u was due\n", functions[function].name, input, (unsigned)answer[0], (unsigned)due);
        status = 1;
    }
}

/* ---- Tables */

static void add_to_table(const void *bytes, size_t size)
{
    memcpy(table + table_len, bytes, size);
    table_len += size;
}

/* A section of this name and of so many of the greatest length, which all begin with this letter. */
static void add_section(const char *name, char letter, size_t names)
{
    const uint8_t head[] = {(uint8_t)(names + 1), (uint8_t)strlen(name)};
    add_to_table(head, sizeof head);
    add_to_table(name, strlen(name));
    for (size_t n = 0; n < names; n++) {
        char one[1 + CDX_MAX_NAME] = {CDX_MAX_NAME, letter, (char)('a' + n / 26), (char)('a' + n % 26)};
        memset(one + 4, 'x', sizeof one - 4);
        add_to_table(one, sizeof one);
    }
}

/* Lab in children mode and Steps in content mode, and so many names more in each. */
static void make_table(size_t names)
{
    table_len = 0;
    add_section("Lab", 'A', names);
    add_section("Steps", 'B', names);
}

static void try_tables(void)
{
    make_table(0);
    measure_due(TABLE, "the smallest table", CDX_OK);
    make_table(CDX_MAX_SECTION - 1);
    measure_due(TABLE, "the largest table", CDX_OK);
    for (; table_len > 0; table_len--)
        measure(TABLE, "the largest table, cut");
    make_table(CDX_MAX_SECTION);
    measure_due(TABLE, "a table of too many names", CDX_TABLE);
}

/* ---- Sheets */

static void add(const char *part, size_t times)
{
    for (size_t size = strlen(part); times > 0; times--, text_len += size)
        memcpy(text + text_len, part, size);
}

/* A trait with a short name of its own, by its number; its value is added next. */
static void add_trait(size_t number)
{
    text_len += (size_t)sprintf((char *)text + text_len, " a%zu=", number);
}

static void add_traits(size_t count)
{
    for (size_t number = 0; number < count; number++) {
        add_trait(number);
        add("1", 1);
    }
}

/* Brackets of one kind in one another, with the value in the innermost. */
static void add_brackets(const char *open, const char *value, const char *close, size_t deep)
{
    add(open, deep);
    add(value, 1);
    add(close, deep);
}

/* The opening markers of Concepts in one another, each with so many traits and an annotation, but for the root. An inner marker has a tab
 * before it, since a line that begins with "<" would begin a sheet of a roll. */
static void open_concepts(size_t concepts, size_t traits)
{
    for (size_t n = 0; n < concepts; n++) {
        add(n == 0 ? "<Lab" : "\t[a]\n\t<Lab", 1);
        add_traits(traits);
        add(">\n", 1);
    }
}

/* The innermost Concept, with so many traits and no end, in as many others as are allowed. */
static void open_all(size_t outer_traits, size_t inner_traits)
{
    text_len = 0;
    open_concepts(CDX_MAX_CONCEPTS - 1, outer_traits);
    add("\t<Lab", 1);
    add_traits(inner_traits);
}

/* The ends of all these. */
static void close_all(void)
{
    add("/>\n", 1);
    add("</Lab>\n", CDX_MAX_CONCEPTS - 1);
}

/* As deep as is allowed in every way: Concepts with traits, and in the innermost brackets of every kind, maps with every kind of value. */
static void make_deepest(void)
{
    static const char *const values[] = {"\"a\\u{1F600}\"", "`a b`", "'a'", "true", "-1", "0.5", "6e6", "7/7", "$H", "~i",
                                         "00000000-0000-0000-0000-000000000000", "x:%41/b#c", "{2026-11-20T08:00:00.5+01:00[Europe/Berlin]}",
                                         "{P1Y2M3DT4H5M6.5S}", "{now}"};
    static const char *const brackets[][2] = {{"[", "]"}, {"set[", "]"}, {"(", ")"}, {"map[key: ", ", b: 2]"}};
    size_t number = 0;
    open_all(6, 0);
    for (size_t at = 0; at < sizeof values / sizeof *values; at++) {
        add_trait(number++);
        add_brackets("map[\"a key\":", values[at], "]", CDX_MAX_BRACKETS);
    }
    for (size_t at = 0; at < sizeof brackets / sizeof *brackets; at++) {
        add_trait(number++);
        add_brackets(brackets[at][0], "1", brackets[at][1], CDX_MAX_BRACKETS);
    }
    close_all();
}

/* As deep, with Content. */
static void make_deep_content(void)
{
    text_len = 0;
    open_concepts(CDX_MAX_CONCEPTS - 1, 6);
    add("\t<Steps b=1 c=2>\n\t\ta\n\n\t\t\tb\n\t</Steps>\n", 1);
    add("</Lab>\n", CDX_MAX_CONCEPTS - 1);
}

/* A sheet of so many bytes, most of them Content. Its form has a line end more. */
static void make_steps(size_t bytes)
{
    text_len = 0;
    add("<Steps>\n\t", 1);
    add("x", bytes - strlen("<Steps>\n\t\n</Steps>"));
    add("\n</Steps>", 1);
}

static void make_smallest(void)
{
    text_len = 0;
    add("<Lab/>", 1);
}

/* With its line end in a roll. */
static void make_largest_form(void)
{
    make_steps(CDX_MAX_SHEET - 2);
}

static void make_largest(void)
{
    make_steps(CDX_MAX_SHEET);
}

static void make_many_traits(void)
{
    text_len = 0;
    add("<Lab", 1);
    add_traits(CDX_MAX_ENTRIES - 1);
    add("/>", 1);
}

static void make_many_items(void)
{
    text_len = 0;
    add("<Lab n=[1", 1);
    add(",1", CDX_MAX_ENTRIES - 3);
    add("]/>", 1);
}

/* As many traits at every depth as there are entries for. All but the outermost and the innermost have an annotation more. */
static void make_deep_and_wide(void)
{
    open_all(CDX_MAX_ENTRIES / CDX_MAX_CONCEPTS - 2, CDX_MAX_ENTRIES / CDX_MAX_CONCEPTS);
    close_all();
}

/* 40 traits at 18 of the outer depths, for which a form has room. */
static void make_wide_outside(void)
{
    const size_t wide = 18;
    text_len = 0;
    open_concepts(wide, 40);
    add("\t<Lab>\n", CDX_MAX_CONCEPTS - 1 - wide);
    add("\t<Lab", 1);
    close_all();
}

/* 40 traits at as many of the inner depths as there are entries for. */
static void make_wide_inside(void)
{
    const size_t wide = (CDX_MAX_ENTRIES - CDX_MAX_CONCEPTS) / 40;
    text_len = 0;
    add("<Lab>\n", 1);
    add("\t<Lab>\n", CDX_MAX_CONCEPTS - 1 - wide);
    for (size_t n = 1; n < wide; n++) {
        add("\t<Lab", 1);
        add_traits(40);
        add(">\n", 1);
    }
    add("\t<Lab", 1);
    add_traits(40);
    close_all();
}

/* All that is done with a sheet. */
static void measure_all(const char *input)
{
    measure(SHEET, input);
    entry = answer[2] > 0 ? answer[2] - 1 : 0;
    measure(VIEW, input);
    measure(WRITE, input);
    measure(ROLL, input);
    measure(ADD, input);
}

/* The same for a sheet that reads without refusal. What its form is answered with, written or added, is said. */
static void measure_accepted(const char *input, enum cdx_number form)
{
    measure_due(SHEET, input, CDX_OK);
    entry = answer[2] - 1;
    measure_due(VIEW, input, CDX_OK);
    measure_due(WRITE, input, form);
    measure_due(ROLL, input, CDX_OK);
    if (answer[2] != 1 || records[CDX_SHEET_NUMBER] != CDX_OK) {
        printf("cdx_roll: %s is not a sheet of a roll\n", input);
        status = 1;
    }
    measure_due(ADD, input, form);
}

static void measure_refused(const char *input, enum cdx_number due)
{
    measure_due(SHEET, input, due);
    measure_all(input);
}

/* A form has every trait of a wide marker on a line of its own, behind tabs, so that those of the deep and wide sheets are too long. */
static void try_accepted(void)
{
    static const struct {
        void (*make)(void);
        enum cdx_number form;
        const char *what;
    } accepted[] = {{make_smallest, CDX_OK, "the smallest sheet"},
                    {make_deepest, CDX_OK, "the deepest sheet"},
                    {make_deep_content, CDX_OK, "the deepest sheet with Content"},
                    {make_many_traits, CDX_OK, "as many traits as are allowed"},
                    {make_many_items, CDX_OK, "as many items as are allowed"},
                    {make_deep_and_wide, CDX_NO_ROOM, "as many traits as are allowed at every depth"},
                    {make_wide_outside, CDX_OK, "40 traits at the outer depths"},
                    {make_wide_inside, CDX_NO_ROOM, "40 traits at the inner depths"},
                    {make_largest_form, CDX_OK, "the largest form"},
                    {make_largest, CDX_NO_ROOM, "the largest sheet"}};
    for (size_t names = 0; names < CDX_MAX_SECTION; names += CDX_MAX_SECTION - 1) {
        make_table(names);
        for (size_t at = 0; at < sizeof accepted / sizeof *accepted; at++) {
            accepted[at].make();
            measure_accepted(accepted[at].what, accepted[at].form);
        }
    }
}

static void try_refused(void)
{
    open_all(6, 6);
    add(">\n\t<Lab/>", 1);
    measure_refused("a Concept too deep", CDX_TOO_DEEP);
    open_all(6, 6);
    add_trait(6);
    add_brackets("map[key:", "1", "]", CDX_MAX_BRACKETS + 1);
    measure_refused("a bracket too deep", CDX_TOO_DEEP);
    open_all(6, 6);
    add_trait(0);
    measure_refused("a trait that stands twice", CDX_TRAIT_TWICE);
    open_all(CDX_MAX_ENTRIES / CDX_MAX_CONCEPTS, 6);
    measure_refused("too many entries", CDX_NO_ENTRY_LEFT);
    make_steps(CDX_MAX_SHEET + 1);
    measure_refused("a sheet that is too long", CDX_SHEET_TOO_LONG);
    make_deepest();
    for (size_t at = 0; at < text_len; at++) {
        const uint8_t kept = text[at];
        text[at] = '?';
        measure_all("the deepest sheet, hurt");
        text[at] = kept;
    }
    for (; text_len > 0; text_len--)
        measure_all("the deepest sheet, cut");
}

/* ---- Rolls and times */

static void try_rolls(void)
{
    text_len = 0;
    add("<Lab/>\n", CDX_MAX_SHEETS);
    measure_due(ROLL, "as many sheets as are allowed", CDX_OK);
    add("<Lab/>\n", 1);
    measure_due(ROLL, "too many sheets", CDX_TOO_MANY_SHEETS);
    make_deepest();
    const size_t one = text_len;
    for (; text_len + one <= CDX_MAX_ROLL; text_len += one)
        memcpy(text + text_len, text, one);
    add("\n", CDX_MAX_ROLL - text_len);
    measure_due(ROLL, "the largest roll", CDX_OK);
    add("\n", 1);
    measure_due(ROLL, "a roll that is too long", CDX_ROLL_TOO_LONG);
    text[0] = 'x';
    text_len--;
    measure_due(ROLL, "a roll with something before its first sheet", CDX_BEFORE_BOUNDARY);
}

static void try_times(void)
{
    static const struct {
        enum cdx_time_kind kind;
        const char *value;
    } times[] = {{CDX_ZONED, "{2024-02-29T08:00:00.123456789+01:00[Europe/Berlin]}"},
                 {CDX_LOCAL, "{2026-11-20T08:00:00.5}"},
                 {CDX_DATE, "{2026-11-20}"},
                 {CDX_YEAR_MONTH, "{2026-11}"},
                 {CDX_MONTH_DAY, "{11-20}"},
                 {CDX_TIME_OF_DAY, "{08:00:00.5}"},
                 {CDX_DURATION, "{P1Y2M3W4DT5H6M7.5S}"},
                 {CDX_RESERVED, "{today}"}};
    for (size_t at = 0; at < sizeof times / sizeof *times; at++) {
        text_len = 0;
        add(times[at].value, 1);
        measure_due(TIME, times[at].value, times[at].kind);
        for (; text_len > 0; text_len--)
            measure(TIME, "a time, cut");
    }
}

/* ---- What is allowed */

/* Takes what each function may take from the words NAME KB.., and whether each has one. */
static bool read_allowed(char **words)
{
    for (; words[0] != NULL && words[1] != NULL; words += 2)
        for (int at = 0; at < FUNCTIONS; at++)
            if (strcmp(words[0], functions[at].name) == 0)
                functions[at].allowed = strtoul(words[1], NULL, 10) * 1024;
    for (int at = 0; at < FUNCTIONS; at++)
        if (functions[at].allowed == 0)
            return false;
    return words[0] == NULL;
}

static void tell(void)
{
    size_t largest = 0;
    for (int at = 0; at < FUNCTIONS; at++) {
        const bool over = functions[at].allowed < functions[at].most;
        printf("%s takes %zu bytes of stack for %s; %zu are allowed%s\n", functions[at].name, functions[at].most, functions[at].most_for,
               functions[at].allowed, over ? ": too many" : "");
        if (over)
            status = 1;
        if (largest < functions[at].allowed)
            largest = functions[at].allowed;
    }
    if (largest != CDX_MAX_STACK) {
        printf("CDX_MAX_STACK is %d, and the largest of these is %zu\n", CDX_MAX_STACK, largest);
        status = 1;
    }
}

int main(int argc, char **argv)
{
    (void)argc;
    if (!read_allowed(argv + 1)) {
        fputs("usage: stack FUNCTION KB.., with each function of cdx.h\n", stderr);
        return 2;
    }
    try_tables();
    try_accepted();
    try_refused();
    try_rolls();
    try_times();
    tell();
    return status;
}
