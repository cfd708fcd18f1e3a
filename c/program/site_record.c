#include "site_record.h"

#include <inttypes.h>

#include "site_plays.h"
#include "site_text.h"

/* Writes bytes as hexadecimal digits, and ends the line. */
static void write_bytes(FILE *out, const uint8_t *bytes, size_t length)
{
    for (size_t i = 0; i < length; i++)
        fprintf(out, "%02x", (unsigned)bytes[i]);
    fprintf(out, "\n");
}

/* Writes what came last in a play and what it answered, a line each. */
static void write_answer(FILE *out, const struct site_run *run)
{
    site_write_last(out, run);
    fprintf(out, "\nverdict %" PRIu32 " %" PRIu32 "\n", run->verdict.number, run->verdict.place);
    if (run->last == SITE_ROUND) {
        fprintf(out, "passes %zu\nmarks ", run->played.passes);
        site_write_marks(out, run);
        fprintf(out, "\ncut-off total %zu\n", run->played.lost);
    }
    fprintf(out, "stored game ");
    write_bytes(out, run->game, run->length);
}

/* Plays a play and writes all of it. */
static void write_play(FILE *out, const struct site_play *play)
{
    struct site_run run;
    site_begin(&run, play);
    fprintf(out, "play %s\nbook ", play->name);
    write_bytes(out, run.book, run.size);
    do
        write_answer(out, &run);
    while (site_go_on(&run));
}

static void write_record(FILE *out, const void *plays)
{
    const struct site_play *play = plays;
    fprintf(out, "%s\n", SITE_RECORD_FORM);
    for (size_t i = 0; i < site_play_count; i++)
        write_play(out, &play[i]);
}

char *site_record(size_t *length)
{
    return site_text_of(write_record, site_plays, length);
}
