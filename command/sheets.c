/* A sheet of a file, read and laid out by the proved functions under a mode table.
 * Document 01's "Entries", "Canonical form" and "Refusal numbers" say what they answer. */
#include "sheets.h"

#include "files.h"
#include "glyphs.h"
#include "twice.h"
#include "words.h"

static bool load_sheet(const char *file, struct sheet *sheet)
{
    sheet->name = called(file);
    return load(file, sheet->bytes, sizeof sheet->bytes, &sheet->length);
}

enum status for_each_sheet(const struct request *request, const struct table *table, sheet_action act)
{
    static struct sheet sheet;
    enum status worst = ALL_WELL;
    for (size_t number = 0; number < request->count; number++) {
        enum status status = load_sheet(request->files[number], &sheet) ? act(request, table, &sheet) : FAILED;
        worst = status > worst ? status : worst;
        if (!is_written())
            return FAILED;
    }
    return worst;
}

bool read_sheet(const struct table *table, struct sheet *sheet)
{
    cdx_sheet(table->bytes, table->length, sheet->bytes, sheet->length, sheet->cells, CDX_MAX_CELLS, sheet->answer);
    return sheet->answer[0] == CDX_OK;
}

bool write_form(const struct table *table, struct sheet *sheet, struct form *form)
{
    cdx_write(table->bytes, table->length, sheet->bytes, sheet->length, sheet->cells, CDX_MAX_CELLS, form->bytes, sizeof form->bytes,
              sheet->answer);
    form->length = sheet->answer[2];
    return sheet->answer[0] == CDX_OK;
}

enum status refuse_sheet(FILE *out, const struct table *table, const struct sheet *sheet)
{
    uint32_t number = sheet->answer[0];
    const char *why = refusal_in_words(number);
    if (number == CDX_NO_ROOM) { /* it is the form that is too long, and no place in the sheet is at fault */
        print_name(out, sheet->name);
        fprintf(out, ": refused %u: %s\n", number, why);
    } else {
        print_refusal(out, sheet->name, sheet->bytes, sheet->length, sheet->answer[1], number, why);
    }
    if (number == CDX_TRAIT_TWICE)
        print_stood_first(out, sheet->name, sheet->bytes, sheet->length,
                          first_place(table, sheet->bytes, sheet->length, sheet->answer[1]));
    return REFUSED;
}
