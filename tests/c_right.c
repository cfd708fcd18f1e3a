#include "c_right.h"

#include "c_bytes.h"
#include "c_form.h"

/* Where the counts stand in a book's header, and the number in a step. */
enum { ROUTINES_AT = 0, SIGNALS_AT = 4, COUNTERS_AT = 6, NUMBER_AT = 4 };

/* The ops of a mark and of those to which a count left belongs, and the largest content of a counter. */
enum { MARK_OP = 0, REST_COUNT_OP = 7, WAIT_COUNT_OP = 9, JOIN_COUNT_OP = 11, MOST_COUNTED = 1000000 };

/* The entry of a routine in the directory of an accepted book. */
static const uint8_t *directory_entry(const struct checked *checked, size_t routine)
{
    return checked->book.bytes + BOOK_HEADER + DIRECTORY_ENTRY * routine;
}

/* The first step of a routine, numbered from the book's first step. */
static size_t first_step(const struct checked *checked, size_t routine)
{
    return (size_t)number_at(directory_entry(checked, routine), 2);
}

/* How many steps a routine has. */
static size_t step_count(const struct checked *checked, size_t routine)
{
    return (size_t)number_at(directory_entry(checked, routine) + 2, 2);
}

/* Where a step stands in an accepted book. */
static size_t step_at(const struct checked *checked, size_t step)
{
    return BOOK_HEADER + DIRECTORY_ENTRY * checked->routines + STEP * step;
}

struct checked checked_book(struct book book)
{
    struct checked checked = {book, verdict_of(book), 0, 0, 0, 0};
    if (checked.verdict.number != ACCEPTED)
        return checked;
    checked.routines = (size_t)number_at(book.bytes + ROUTINES_AT, 2);
    checked.signals = (size_t)number_at(book.bytes + SIGNALS_AT, 2);
    checked.counters = (size_t)number_at(book.bytes + COUNTERS_AT, 2);
    for (size_t at = step_at(&checked, 0); at < book.size; at += STEP)
        checked.mark_steps += book.bytes[at] == MARK_OP;
    return checked;
}

struct zulqenat_part right_part(const struct checked *checked, uint32_t routine)
{
    struct zulqenat_part part = {0, 0};
    if (routine < checked->routines) {
        part.offset = step_at(checked, first_step(checked, routine));
        part.length = STEP * step_count(checked, routine);
    }
    return part;
}

/* Whether a list has only routines of the book, and none twice; `is_in` gets which they are. */
static int list_fits(const struct checked *checked, const struct plain_game *game, enum field length, enum field list, int is_in[])
{
    int fine = 1;
    for (size_t i = 0; fine && i < (size_t)entry(game, length, 0); i++) {
        size_t routine = (size_t)entry(game, list, i);
        fine = routine < checked->routines && !is_in[routine];
        if (fine)
            is_in[routine] = 1;
    }
    return fine;
}

/* Whether begun and the count left of a routine fit the step that it is at. */
static int count_fits(const struct checked *checked, const struct plain_game *game, size_t routine)
{
    size_t place = (size_t)entry(game, PLACE, routine);
    int64_t left = entry(game, LEFT, routine);
    if (entry(game, BEGUN, routine) == 0)
        return left == 0;
    if (place >= step_count(checked, routine))
        return 0;
    const uint8_t *step = checked->book.bytes + step_at(checked, first_step(checked, routine) + place);
    int is_timed = step[0] == REST_COUNT_OP || step[0] == WAIT_COUNT_OP || step[0] == JOIN_COUNT_OP;
    return is_timed && left < (int32_t)number_at(step + NUMBER_AT, 4);
}

/* Whether what a game keeps of a routine fits: its place, its stage with the lists that it is in, and the count left. */
static int routine_fits(const struct checked *checked, const struct plain_game *game, size_t routine, int is_listed, int is_to_start)
{
    int64_t stage = entry(game, STAGE, routine);
    int plays = stage == ZULQENAT_CONTINUING || stage == ZULQENAT_RESTED;
    return (size_t)entry(game, PLACE, routine) <= step_count(checked, routine) && (is_listed == plays || stage == ZULQENAT_ENDED)
        && (!is_to_start || stage == ZULQENAT_NOT_STARTED) && count_fits(checked, game, routine);
}

/* Whether a game of the stored form fits an accepted book. */
static int game_fits(const struct checked *checked, const struct plain_game *game)
{
    int is_listed[ENTRIES] = {0}, is_to_start[ENTRIES] = {0};
    int fine = (size_t)entry(game, ROUTINES, 0) == checked->routines && (size_t)entry(game, SIGNALS, 0) == checked->signals
        && (size_t)entry(game, COUNTERS, 0) == checked->counters && list_fits(checked, game, LISTED_LENGTH, LISTED, is_listed)
        && list_fits(checked, game, TO_START_LENGTH, TO_START, is_to_start);
    for (size_t i = 0; fine && i < checked->routines; i++)
        fine = routine_fits(checked, game, i, is_listed[i], is_to_start[i]);
    for (size_t i = 0; fine && i < checked->counters; i++)
        fine = entry(game, COUNTER, i) >= -MOST_COUNTED && entry(game, COUNTER, i) <= MOST_COUNTED;
    return fine;
}

uint32_t fit_number(const struct checked *checked, const uint8_t *bytes, size_t room, size_t length)
{
    struct plain_game game;
    if (checked->verdict.number != ACCEPTED)
        return checked->verdict.number;
    if (length > room || !is_formed(bytes, length))
        return NOT_STORED;
    read_formed(bytes, &game);
    return game_fits(checked, &game) ? ACCEPTED : UNFIT;
}

/* Whether an order is of unknown kind, or its number is not below its count. */
static int is_wrong_order(const struct checked *checked, const struct act *act)
{
    return act->kind > ZULQENAT_RESUME || act->number >= (act->kind == ZULQENAT_BROADCAST ? checked->signals : checked->routines);
}

uint32_t act_number(const struct checked *checked, const struct act *act, const uint8_t *before, size_t room, size_t length)
{
    uint32_t number = act->call == SET_UP ? checked->verdict.number : fit_number(checked, before, room, length);
    if (number == ACCEPTED && act->call == ORDER && is_wrong_order(checked, act))
        return WRONG_ORDER;
    if (number == ACCEPTED && act->call == PLAY && act->numbers < 2 * checked->mark_steps)
        return FEW_NUMBERS;
    return number;
}
