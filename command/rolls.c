/* A roll of a file, read by the proved function under a mode table.
 * Document 01's "Rolls" says where its sheets are, and what their records have. */
#include "rolls.h"

#include "files.h"
#include "words.h"

bool load_roll(const char *file, struct roll *roll)
{
    roll->name = called(file);
    return load(file, roll->bytes, sizeof roll->bytes, &roll->length);
}

bool read_roll(const struct table *table, struct roll *roll)
{
    cdx_roll(table->bytes, table->length, roll->bytes, roll->length, roll->records, CDX_MAX_RECORD_CELLS, roll->cells,
             CDX_MAX_CELLS, roll->answer);
    return roll->answer[0] == CDX_OK;
}

enum status refuse_roll(FILE *out, const struct roll *roll)
{
    uint32_t number = roll->answer[0];
    print_refusal(out, roll->name, roll->bytes, roll->length, roll->answer[1], number, refusal_in_words(number));
    return REFUSED;
}
