/* A library that is wrong in one respect, for tests/site.sh: the linker's option --wrap leads the program's calls here, and they hand on to
 * the proved library. -DWRONG=.. chooses the respect. The books and games of the program's built-in plays come here, all of them sound. */
#include <string.h>

#include "book.h"
#include "stored_game.h"
#include "words.h"

enum {
    NOTHING,
    /* A resume comes behind a suspend. */
    RESUME_COMES_LAST,
    /* Of orders to suspend and to resume a routine the first that is given counts, and the other does not. */
    FIRST_ORDER_COUNTS,
    /* A suspended routine is suspended for one round only. */
    SUSPENDED_FOR_A_ROUND,
    /* An order to resume is refused. */
    RESUME_REFUSED,
    /* A waiter acts in the round that finds its signal absent. */
    WAITER_ACTS,
    /* A waiter is not moved by a signal that comes later in the round. */
    WAITER_STAYS,
    /* A waiter is left behind its wait when the signal stayed absent. */
    WAITER_BEHIND_ITS_WAIT,
    /* A pass too many is told. */
    PASS_TOO_MANY,
    /* Of a faulty step the one behind it is told. */
    STEP_BEHIND,
    /* A sound book is refused. */
    SOUND_BOOK_REFUSED,
    /* The words for a refusal are those for the step behind the faulty one. */
    WORDS_FOR_STEP_BEHIND,
    /* Where something is cut off, 1 too many is told. */
    CUT_OFF_TOTAL,
    /* The first mark of a round and the last are exchanged. */
    MARKS_EXCHANGED,
    /* An order that has to be refused with 8 is refused with 9. */
    OTHER_REFUSAL,
    /* Where something is cut off, a counter at its upper end is stored as 1 less. */
    COUNTER_BELOW_ITS_END
};

/* A counter at its upper end, 1,000,000. */
static const uint8_t UPPER_END[COUNTER_BYTES] = {0x40, 0x42, 0x0f, 0};

struct zulqenat_verdict __real_zulqenat_check_book(const uint8_t *book, size_t size);
struct zulqenat_stored __real_zulqenat_order(const uint8_t *book, size_t size, uint8_t *game, size_t room, size_t length, uint32_t kind,
                                             uint32_t number);
struct zulqenat_round __real_zulqenat_play(const uint8_t *book, size_t size, uint8_t *game, size_t room, size_t length, int32_t *marks,
                                           size_t numbers);
void __real_print_book_refusal(FILE *out, const char *file, const uint8_t *book, size_t size, struct zulqenat_verdict verdict);

struct zulqenat_verdict __wrap_zulqenat_check_book(const uint8_t *book, size_t size)
{
    struct zulqenat_verdict verdict = __real_zulqenat_check_book(book, size);
    if (WRONG == STEP_BEHIND && verdict.number != 0)
        verdict.place++;
    if (WRONG == SOUND_BOOK_REFUSED && verdict.number == 0)
        verdict.number = 7;
    return verdict;
}

void __wrap_print_book_refusal(FILE *out, const char *file, const uint8_t *book, size_t size, struct zulqenat_verdict verdict)
{
    if (WRONG == WORDS_FOR_STEP_BEHIND)
        verdict.place++;
    __real_print_book_refusal(out, file, book, size, verdict);
}

/* The record of a routine in a stored game. */
static uint8_t *record_of(uint8_t *game, size_t routine)
{
    return game + AT_RECORDS + RECORD_BYTES * routine;
}

/* Whether an order is one to suspend or resume a routine and the other was given before it. */
static int has_other_order(const uint8_t *book, uint8_t *game, uint32_t kind, uint32_t number)
{
    unsigned other = kind == ZULQENAT_SUSPEND ? ZULQENAT_TO_RESUME : kind == ZULQENAT_RESUME ? ZULQENAT_TO_SUSPEND : 0;
    return number < number_at(book, AT_ROUTINES) && (record_of(game, number)[AT_FLAGS] & other) != 0;
}

struct zulqenat_stored __wrap_zulqenat_order(const uint8_t *book, size_t size, uint8_t *game, size_t room, size_t length, uint32_t kind,
                                             uint32_t number)
{
    if (WRONG == RESUME_REFUSED && kind == ZULQENAT_RESUME)
        return (struct zulqenat_stored){{8, 0}, 0};
    if (WRONG == FIRST_ORDER_COUNTS && has_other_order(book, game, kind, number))
        return (struct zulqenat_stored){{0, 0}, length};
    struct zulqenat_stored stored = __real_zulqenat_order(book, size, game, room, length, kind, number);
    if (WRONG == OTHER_REFUSAL && stored.verdict.number == 8)
        stored.verdict.number = 9;
    return stored;
}

/* The step at which a routine stands, or null where it stands behind its last. */
static uint8_t *step_at(uint8_t *book, uint8_t *game, size_t routine)
{
    const uint8_t *entry = book + HEADER_BYTES + ENTRY_BYTES * routine;
    size_t place = number_at(record_of(game, routine), AT_PLACE);
    size_t steps = number_at(book, AT_STEPS_OFFSET);
    return place < number_at(entry, AT_ENTRY_COUNT) ? book + steps + STEP_BYTES * (number_at(entry, 0) + place) : NULL;
}

/* Whether a routine has rested at a wait. */
static int waits(uint8_t *book, uint8_t *game, size_t routine)
{
    const uint8_t *step = step_at(book, game, routine);
    return step != NULL && step[0] == OP_WAIT && record_of(game, routine)[AT_STAGE] == ZULQENAT_RESTED;
}

/* Plays a round of a copy of the game, and answers its passes. */
static size_t try_round(const uint8_t *book, size_t size, uint8_t *game, size_t length)
{
    int32_t marks[ZULQENAT_MARK_NUMBERS];
    return __real_zulqenat_play(book, size, game, ZULQENAT_STORED_BYTES, length, marks, ZULQENAT_MARK_NUMBERS).passes;
}

/* Makes each wait whose signal stays absent in this round a step that is past at once, and answers the passes of the round without that. */
static size_t let_waiters_act(uint8_t *book, size_t size, const uint8_t *game, size_t length)
{
    uint8_t after[ZULQENAT_STORED_BYTES];
    memcpy(after, game, length);
    size_t passes = try_round(book, size, after, length);
    for (size_t routine = 0; routine < number_at(book, AT_ROUTINES); routine++)
        if (waits(book, after, routine))
            memcpy(step_at(book, after, routine), (const uint8_t[STEP_BYTES]){OP_REST_N}, STEP_BYTES);
    return passes;
}

/* Lets all routines behind the first `count` of the playing order be suspended, with those to start. */
static void suspend_behind(uint8_t *game, size_t count)
{
    const uint8_t *listed = game + number_at(game, AT_LISTS_OFFSET);
    const uint8_t *starting = listed + COUNT_BYTES + number_at(listed, 0);
    for (size_t i = count; i < number_at(listed, 0); i++)
        record_of(game, listed[COUNT_BYTES + i])[AT_FLAGS] |= ZULQENAT_TO_SUSPEND;
    for (size_t i = 0; i < number_at(starting, 0); i++)
        record_of(game, starting[COUNT_BYTES + i])[AT_FLAGS] |= ZULQENAT_TO_SUSPEND;
}

/* Makes each wait a join of the waiting routine itself, which is never past, where the signal is neither broadcast nor given by a routine
 * in front of it in the playing order. */
static void let_waiters_stay(uint8_t *book, size_t size, uint8_t *game, size_t length)
{
    const uint8_t *listed = game + number_at(game, AT_LISTS_OFFSET);
    for (size_t i = 0; i < number_at(listed, 0); i++) {
        size_t routine = listed[COUNT_BYTES + i];
        uint8_t after[ZULQENAT_STORED_BYTES];
        memcpy(after, game, length);
        suspend_behind(after, i + 1);
        try_round(book, size, after, length);
        uint8_t *step = step_at(book, game, routine);
        if (waits(book, game, routine) && step == step_at(book, after, routine)) {
            step[0] = OP_JOIN;
            step[1] = (uint8_t)routine;
        }
    }
}

/* Changes the flags with which a routine comes into the round. */
static void change_flags(uint8_t *flags)
{
    const unsigned both = ZULQENAT_TO_SUSPEND | ZULQENAT_TO_RESUME;
    if (WRONG == RESUME_COMES_LAST && (*flags & both) == both)
        *flags &= (uint8_t)~ZULQENAT_TO_SUSPEND;
    if (WRONG == SUSPENDED_FOR_A_ROUND)
        *flags &= (uint8_t)~ZULQENAT_SUSPENDED;
}

/* Sets each waiter that rested behind its wait. */
static void move_waiters(uint8_t *book, uint8_t *game)
{
    for (size_t routine = 0; routine < number_at(book, AT_ROUTINES); routine++)
        if (waits(book, game, routine))
            record_of(game, routine)[AT_PLACE]++;
}

/* Takes 1 from each counter at its upper end. */
static void lower_counters(uint8_t *game)
{
    uint8_t *end = game + number_at(game, AT_LISTS_OFFSET);
    for (uint8_t *counter = game + number_at(game, AT_COUNTERS_OFFSET); counter < end; counter += COUNTER_BYTES)
        if (memcmp(counter, UPPER_END, COUNTER_BYTES) == 0)
            counter[0]--;
}

/* Exchanges the first mark and the last. */
static void exchange_marks(int32_t *marks, size_t count)
{
    int32_t first[2];
    memcpy(first, marks, sizeof first);
    memcpy(marks, marks + 2 * (count - 1), sizeof first);
    memcpy(marks + 2 * (count - 1), first, sizeof first);
}

/* Plays a round of a book and a game that are changed so that what comes of it is wrong. */
static struct zulqenat_round play_changed(uint8_t *book, size_t size, uint8_t *game, size_t room, size_t length, int32_t *marks,
                                          size_t numbers)
{
    size_t passes = 0;
    for (size_t routine = 0; routine < number_at(book, AT_ROUTINES); routine++)
        change_flags(&record_of(game, routine)[AT_FLAGS]);
    if (WRONG == WAITER_ACTS)
        passes = let_waiters_act(book, size, game, length);
    if (WRONG == WAITER_STAYS)
        let_waiters_stay(book, size, game, length);
    struct zulqenat_round played = __real_zulqenat_play(book, size, game, room, length, marks, numbers);
    if (WRONG == WAITER_ACTS)
        played.passes = passes;
    return played;
}

struct zulqenat_round __wrap_zulqenat_play(const uint8_t *book, size_t size, uint8_t *game, size_t room, size_t length, int32_t *marks,
                                           size_t numbers)
{
    uint8_t copy[ZULQENAT_BOOK_BYTES];
    memcpy(copy, book, size);
    struct zulqenat_round played = play_changed(copy, size, game, room, length, marks, numbers);
    if (WRONG == WAITER_BEHIND_ITS_WAIT)
        move_waiters(copy, game);
    if (WRONG == COUNTER_BELOW_ITS_END && played.lost > 0)
        lower_counters(game);
    if (WRONG == MARKS_EXCHANGED && played.marks > 1)
        exchange_marks(marks, played.marks);
    played.passes += WRONG == PASS_TOO_MANY;
    played.lost += WRONG == CUT_OFF_TOTAL && played.lost > 0;
    return played;
}
