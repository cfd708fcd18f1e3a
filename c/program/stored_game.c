#include "stored_game.h"

#include "book.h"

struct standing standing_of(const uint8_t *game, unsigned routine)
{
    const uint8_t *record = game + AT_RECORDS + RECORD_BYTES * routine;
    return (struct standing){record[AT_STAGE], record[AT_FLAGS], number_at(record, AT_PLACE)};
}

void write_standing(FILE *out, struct standing standing)
{
    static const char *const stages[] = {"not started", "continuing", "rested", "ended", "stopped"};
    static const char *const flags[] = {"suspended", "begun", "to stop", "to suspend", "to resume"};
    fprintf(out, "%s at place %u", standing.stage < sizeof stages / sizeof stages[0] ? stages[standing.stage] : "of no stage",
            standing.place);
    for (unsigned bit = 0; bit < sizeof flags / sizeof flags[0]; bit++)
        if ((standing.flags >> bit & 1) != 0)
            fprintf(out, ", %s", flags[bit]);
}

/* The parts of the header, of two bytes each, and of a routine's record by its bytes. */
static const char *const HEADER_PARTS[] = {
    "the form's number", "the count of routines", "the count of signals", "the count of counters", "the offset of the records",
    "the offset of the counters", "the offset of the lists",
};
static const char *const RECORD_PARTS[] = {
    "the stage", "the flags", "the place", "the place", "the count left", "the count left", "the count left", "the count left",
};

/* Names the list in which a byte of a stored game lies, or the signals behind the lists. */
static void write_list_part(FILE *out, const uint8_t *game, size_t length, size_t byte)
{
    static const char *const names[] = {"the playing order", "the routines to start"};
    size_t at = number_at(game, AT_LISTS_OFFSET);
    for (size_t i = 0; i < sizeof names / sizeof names[0] && at + COUNT_BYTES <= length; i++) {
        size_t end = at + COUNT_BYTES + number_at(game, at);
        if (byte < end) {
            fprintf(out, "%s%s", byte < at + COUNT_BYTES ? "the count of " : "", names[i]);
            return;
        }
        at = end;
    }
    fprintf(out, "the signals to broadcast");
}

void write_part(FILE *out, const uint8_t *game, size_t length, size_t byte)
{
    if (byte < AT_RECORDS) {
        fprintf(out, "%s", HEADER_PARTS[byte / 2]);
        return;
    }
    size_t counters = number_at(game, AT_COUNTERS_OFFSET), lists = number_at(game, AT_LISTS_OFFSET);
    size_t record = byte - AT_RECORDS;
    if (byte < counters)
        fprintf(out, "%s of routine %zu", RECORD_PARTS[record % RECORD_BYTES], record / RECORD_BYTES);
    else if (byte < lists)
        fprintf(out, "counter %zu", (byte - counters) / COUNTER_BYTES);
    else
        write_list_part(out, game, length, byte);
}
