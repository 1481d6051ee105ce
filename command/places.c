/* Places for a person: a byte's line and column, and that line with a caret under the byte.
 * A line is printed in at most WIDTH columns behind a margin, with tabs as spaces, so that the caret stands right everywhere. */
#include "places.h"

#include "glyphs.h"

#include <stdbool.h>
#include <string.h>

enum { WIDTH = 72, MARGIN = 4 };

/* What stands at the end of the input, as in docs/FORMAT.md. */
static const char end_mark[] = "‹end›";
enum { END_COLUMNS = 5 };

struct place place_of(const uint8_t *bytes, size_t length, size_t at)
{
    struct place place = {.line = 1, .column = 1};
    for (size_t before = 0; before < at; before++)
        if (bytes[before] == '\n') {
            place.line++;
            place.start = before + 1;
        }
    const uint8_t *feed = at < length ? memchr(bytes + at, '\n', length - at) : NULL;
    place.end = feed != NULL ? (size_t)(feed - bytes) : length;
    if (feed != NULL && place.end > place.start && bytes[place.end - 1] == '\r')
        place.end--;
    for (size_t next = place.start; next < at && next < place.end; place.column++)
        next += first_glyph(bytes + next, place.end - next, 0).bytes;
    return place;
}

void print_place(FILE *out, const char *name, const uint8_t *bytes, size_t length, size_t at)
{
    struct place place = place_of(bytes, length, at);
    print_name(out, name);
    fprintf(out, ":%zu:%zu", place.line, place.column);
}

/* The columns of a line from its start to a place in it. */
static size_t columns_to(const uint8_t *line, size_t length, size_t to)
{
    size_t columns = 0;
    for (size_t at = 0; at < length;) {
        struct glyph glyph = first_glyph(line + at, length - at, columns);
        if (at + glyph.bytes > to)
            break;
        columns += glyph.columns;
        at += glyph.bytes;
    }
    return columns;
}

/* The columns of a line that are printed. */
struct window {
    size_t from, to;
};

/* All of them where they fit, else a stretch with the caret in its middle where both sides go on. */
static struct window window_around(size_t caret, size_t whole)
{
    struct window window = {0, WIDTH};
    if (whole <= WIDTH || caret <= WIDTH / 2)
        return window;
    window.from = caret + WIDTH / 2 < whole ? caret - WIDTH / 2 : whole - WIDTH;
    window.to = window.from + WIDTH;
    return window;
}

/* Prints what lies wholly in the window, and gives how many columns of it stand before the caret. */
static size_t print_window(FILE *out, const uint8_t *line, size_t length, struct window window, size_t caret)
{
    size_t columns = 0, before = 0;
    for (size_t at = 0; at < length;) {
        struct glyph glyph = first_glyph(line + at, length - at, columns);
        if (columns >= window.from && columns + glyph.columns <= window.to) {
            fputs(glyph.shown, out);
            before += columns < caret ? glyph.columns : 0;
        }
        columns += glyph.columns;
        at += glyph.bytes;
    }
    return before;
}

void print_line(FILE *out, const uint8_t *bytes, size_t length, size_t at)
{
    struct place place = place_of(bytes, length, at);
    const uint8_t *line = bytes + place.start;
    size_t line_length = place.end - place.start;
    size_t caret = columns_to(line, line_length, at - place.start);
    size_t whole = columns_to(line, line_length, line_length) + (at == length ? END_COLUMNS : 0);
    struct window window = window_around(caret, whole);

    fprintf(out, "%*s%s", MARGIN, "", window.from > 0 ? "…" : "");
    size_t before = print_window(out, line, line_length, window, caret);
    fputs(at == length ? end_mark : whole > window.to ? "…" : "", out);
    fprintf(out, "\n%*s^\n", (int)(MARGIN + (window.from > 0) + before), "");
}
