#include "c_form.h"

#include <string.h>

#include "c_bytes.h"
#include "zulqenat.h"

/* The bytes of the parts of a stored game, and the number of its form. */
enum { HEADER_BYTES = 14, RECORD_BYTES = 8, COUNTER_BYTES = 4, COUNT_BYTES = 2, SIGNAL_BYTES = 8, FORM = 1 };

/* The byte of a record in which the flags are, and the places of the header's numbers. */
enum { FLAGS_AT = 1, FORM_AT = 0, ROUTINES_AT = 2, SIGNALS_AT = 4, COUNTERS_AT = 6, OFFSETS_AT = 8, LISTS_AT = 12 };

/* A field that has all its entries in the stored form, whatever the counts are. */
enum { ALWAYS = FIELDS };

/* A field's name in the scripts, the least and the most that the stored form holds, and the field whose number says how many entries the
 * stored form has. */
struct rule {
    const char *name;
    int64_t least;
    int64_t most;
    int counted_by;
};

static const struct rule rules[FIELDS] = {
    [ROUTINES] = {"R", 0, UINT16_MAX, ALWAYS},
    [SIGNALS] = {"E", 0, UINT16_MAX, ALWAYS},
    [COUNTERS] = {"C", 0, UINT16_MAX, ALWAYS},
    [LISTED_LENGTH] = {"listed_len", 0, UINT16_MAX, ALWAYS},
    [TO_START_LENGTH] = {"tostart_len", 0, UINT16_MAX, ALWAYS},
    [STAGE] = {"stage", 0, UINT8_MAX, ROUTINES},
    [SUSPENDED] = {"susp", 0, 1, ROUTINES},
    [PLACE] = {"place", 0, UINT16_MAX, ROUTINES},
    [BEGUN] = {"begun", 0, 1, ROUTINES},
    [LEFT] = {"left", 0, UINT32_MAX, ROUTINES},
    [TO_STOP] = {"tostop", 0, 1, ROUTINES},
    [TO_SUSPEND] = {"tosuspend", 0, 1, ROUTINES},
    [TO_RESUME] = {"toresume", 0, 1, ROUTINES},
    [COUNTER] = {"counter", INT32_MIN, INT32_MAX, COUNTERS},
    [LISTED] = {"listed", 0, UINT8_MAX, LISTED_LENGTH},
    [TO_START] = {"tostart", 0, UINT8_MAX, TO_START_LENGTH},
    [BROADCAST] = {"broadcast", 0, 1, ALWAYS},
};

/* The flags of a record and their fields. */
static const struct {
    enum field field;
    unsigned bit;
} flags[] = {
    {SUSPENDED, ZULQENAT_SUSPENDED},   {BEGUN, ZULQENAT_BEGUN},         {TO_STOP, ZULQENAT_TO_STOP},
    {TO_SUSPEND, ZULQENAT_TO_SUSPEND}, {TO_RESUME, ZULQENAT_TO_RESUME},
};

/* How many flags there are, and what the flags of a record are below where all of them are named. */
enum { FLAGS = sizeof flags / sizeof flags[0], FLAGS_END = 2 * ZULQENAT_TO_RESUME };

int64_t entry(const struct plain_game *game, enum field field, size_t at)
{
    return at < ENTRIES ? game->of[field][at] : 0;
}

enum field field_named(const char *name)
{
    int field = 0;
    while (field < FIELDS && strcmp(rules[field].name, name) != 0)
        field++;
    return (enum field)field;
}

/* Whether the stored form holds every entry of a field. */
static int holds_field(const struct plain_game *game, enum field field)
{
    const struct rule *rule = &rules[field];
    int64_t entries = rule->counted_by == ALWAYS ? ENTRIES : entry(game, (enum field)rule->counted_by, 0);
    int fine = 1;
    for (int i = 0; fine && i < ENTRIES; i++) {
        int64_t number = game->of[field][i];
        fine = i < entries ? number >= rule->least && number <= rule->most : number == 0;
    }
    return fine;
}

/* What lies in front of counter `counters` of a game of `routines` routines; with the number of its counters, where the lists begin. */
static size_t bytes_before(size_t routines, size_t counters)
{
    return HEADER_BYTES + RECORD_BYTES * routines + COUNTER_BYTES * counters;
}

/* The number of a field that counts something, in a game that can be stored. */
static size_t count(const struct plain_game *game, enum field field)
{
    return (size_t)game->of[field][0];
}

int can_be_stored(const struct plain_game *game)
{
    int fine = 1;
    for (int field = 0; fine && field < FIELDS; field++)
        fine = holds_field(game, (enum field)field);
    return fine && bytes_before(count(game, ROUTINES), count(game, COUNTERS)) <= UINT16_MAX;
}

size_t stored_size(const struct plain_game *game)
{
    size_t entries = count(game, LISTED_LENGTH) + count(game, TO_START_LENGTH);
    return bytes_before(count(game, ROUTINES), count(game, COUNTERS)) + 2 * COUNT_BYTES + entries + SIGNAL_BYTES;
}

/* Writes the header, and gives the place behind it, as do those below. */
static uint8_t *put_header(const struct plain_game *game, uint8_t *at)
{
    size_t routines = count(game, ROUTINES), counters = count(game, COUNTERS);
    const uint64_t numbers[] = {FORM,         routines,                  count(game, SIGNALS),            counters,
                                HEADER_BYTES, bytes_before(routines, 0), bytes_before(routines, counters)};
    for (size_t i = 0; i < sizeof numbers / sizeof numbers[0]; i++)
        at = put_number(at, 2, numbers[i]);
    return at;
}

/* Writes the record of a routine. */
static uint8_t *put_record(const struct plain_game *game, size_t routine, uint8_t *at)
{
    unsigned set = 0;
    for (int i = 0; i < FLAGS; i++)
        set |= entry(game, flags[i].field, routine) != 0 ? flags[i].bit : 0;
    at = put_number(at, 1, (uint64_t)entry(game, STAGE, routine));
    at = put_number(at, 1, set);
    at = put_number(at, 2, (uint64_t)entry(game, PLACE, routine));
    return put_number(at, 4, (uint64_t)entry(game, LEFT, routine));
}

/* Writes a list with its length in front. */
static uint8_t *put_list(const struct plain_game *game, enum field length, enum field list, uint8_t *at)
{
    size_t entries = count(game, length);
    at = put_number(at, COUNT_BYTES, entries);
    for (size_t i = 0; i < entries; i++)
        at = put_number(at, 1, (uint64_t)entry(game, list, i));
    return at;
}

void store(const struct plain_game *game, uint8_t *bytes)
{
    uint8_t *at = put_header(game, bytes);
    uint64_t broadcast = 0;
    for (size_t i = 0; i < count(game, ROUTINES); i++)
        at = put_record(game, i, at);
    for (size_t i = 0; i < count(game, COUNTERS); i++)
        at = put_number(at, COUNTER_BYTES, (uint64_t)entry(game, COUNTER, i));
    at = put_list(game, LISTED_LENGTH, LISTED, at);
    at = put_list(game, TO_START_LENGTH, TO_START, at);
    for (size_t i = 0; i < ENTRIES; i++)
        broadcast |= (uint64_t)entry(game, BROADCAST, i) << i;
    put_number(at, SIGNAL_BYTES, broadcast);
}

/* Whether the 14 bytes of a header have the form's number, counts within the limits and the offsets that go with them. */
static int header_is_right(const uint8_t *bytes)
{
    size_t routines = (size_t)number_at(bytes + ROUTINES_AT, 2), counters = (size_t)number_at(bytes + COUNTERS_AT, 2);
    return number_at(bytes + FORM_AT, 2) == FORM && routines >= 1 && routines <= ZULQENAT_ROUTINES
        && number_at(bytes + SIGNALS_AT, 2) <= ZULQENAT_SIGNALS && counters <= ZULQENAT_COUNTERS
        && number_at(bytes + OFFSETS_AT, 2) == HEADER_BYTES && number_at(bytes + OFFSETS_AT + 2, 2) == bytes_before(routines, 0)
        && number_at(bytes + LISTS_AT, 2) == bytes_before(routines, counters);
}

size_t end_of(const uint8_t *bytes, size_t length)
{
    if (length < HEADER_BYTES || !header_is_right(bytes))
        return 0;
    size_t end = (size_t)number_at(bytes + LISTS_AT, 2);
    for (int list = 0; list < 2; list++) {
        size_t entries = end + COUNT_BYTES <= length ? (size_t)number_at(bytes + end, COUNT_BYTES) : SIZE_MAX;
        if (entries > ZULQENAT_ROUTINES)
            return 0;
        end += COUNT_BYTES + entries;
    }
    end += SIGNAL_BYTES;
    return end <= length ? end : 0;
}

int is_formed(const uint8_t *bytes, size_t length)
{
    int fine = length > 0 && end_of(bytes, length) == length;
    size_t routines = fine ? (size_t)number_at(bytes + ROUTINES_AT, 2) : 0;
    for (size_t i = 0; fine && i < routines; i++) {
        const uint8_t *record = bytes + HEADER_BYTES + RECORD_BYTES * i;
        fine = record[0] <= ZULQENAT_STOPPED && record[FLAGS_AT] < FLAGS_END;
    }
    uint64_t signals = fine ? number_at(bytes + SIGNALS_AT, 2) : ENTRIES;
    return fine && (signals == ENTRIES || number_at(bytes + length - SIGNAL_BYTES, SIGNAL_BYTES) >> signals == 0);
}

/* Reads the record of a routine. */
static void read_record(const uint8_t *record, size_t routine, struct plain_game *game)
{
    game->of[STAGE][routine] = record[0];
    game->of[PLACE][routine] = (int64_t)number_at(record + 2, 2);
    game->of[LEFT][routine] = (int64_t)number_at(record + 4, 4);
    for (int i = 0; i < FLAGS; i++)
        game->of[flags[i].field][routine] = (record[FLAGS_AT] & flags[i].bit) != 0;
}

/* Reads a list, and gives the place behind it. */
static const uint8_t *read_list(const uint8_t *bytes, enum field length, enum field list, struct plain_game *game)
{
    size_t entries = (size_t)number_at(bytes, COUNT_BYTES);
    game->of[length][0] = (int64_t)entries;
    for (size_t i = 0; i < entries; i++)
        game->of[list][i] = bytes[COUNT_BYTES + i];
    return bytes + COUNT_BYTES + entries;
}

/* Reads the counters, which are in two's complement. */
static void read_counters(const uint8_t *bytes, size_t counters, struct plain_game *game)
{
    for (size_t i = 0; i < counters; i++) {
        int64_t number = (int64_t)number_at(bytes + COUNTER_BYTES * i, COUNTER_BYTES);
        game->of[COUNTER][i] = number > INT32_MAX ? number - UINT32_MAX - 1 : number;
    }
}

void read_formed(const uint8_t *bytes, struct plain_game *game)
{
    size_t routines = (size_t)number_at(bytes + ROUTINES_AT, 2), counters = (size_t)number_at(bytes + COUNTERS_AT, 2);
    memset(game, 0, sizeof *game);
    game->of[ROUTINES][0] = (int64_t)routines;
    game->of[SIGNALS][0] = (int64_t)number_at(bytes + SIGNALS_AT, 2);
    game->of[COUNTERS][0] = (int64_t)counters;
    for (size_t i = 0; i < routines; i++)
        read_record(bytes + HEADER_BYTES + RECORD_BYTES * i, i, game);
    read_counters(bytes + bytes_before(routines, 0), counters, game);
    const uint8_t *at = read_list(bytes + bytes_before(routines, counters), LISTED_LENGTH, LISTED, game);
    at = read_list(at, TO_START_LENGTH, TO_START, game);
    uint64_t broadcast = number_at(at, SIGNAL_BYTES);
    for (size_t i = 0; i < ENTRIES; i++)
        game->of[BROADCAST][i] = broadcast >> i & 1;
}
