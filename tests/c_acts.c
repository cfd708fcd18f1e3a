#include "c_acts.h"

#include <stdlib.h>
#include <string.h>

#include "c_bytes.h"

/* The most that the additions of a round cut off, and the largest number of a mark. */
enum { MOST_LOST = 1024000000, LARGEST_NUMBER = 1000000 };

unsigned long told[CALLS][NUMBERS_TOLD];

/* The memory that is lent to a call which writes a game, and what the game's buffer held before. */
struct lent {
    uint8_t *game;
    const uint8_t *before;
    size_t room;
    int32_t *marks;
    size_t numbers;
};

/* Counts an answer, and gives its verdict back. A number that there is not is counted as none. */
static struct zulqenat_verdict counted(enum call call, struct zulqenat_verdict verdict)
{
    if (verdict.number < NUMBERS_TOLD)
        told[call][verdict.number]++;
    return verdict;
}

struct zulqenat_verdict verdict_of(struct book book)
{
    return counted(CHECK_BOOK, zulqenat_check_book(book.bytes, book.size));
}

struct zulqenat_part part_of(struct book book, uint32_t routine)
{
    told[SHOW][ACCEPTED]++;
    return zulqenat_show(book.bytes, book.size, routine);
}

/* Whether a verdict is one that there is, and has a place only where it is one of the book. */
static int is_verdict(struct zulqenat_verdict verdict)
{
    int placed = verdict.number > ACCEPTED && verdict.number < WRONG_ORDER;
    return holds(verdict.number < NUMBERS_TOLD, "a number that there is not")
        && holds(placed || verdict.place == 0, "a place that there is not");
}

int fit_in(struct book book, const uint8_t *game, size_t room, size_t length, struct zulqenat_verdict *verdict)
{
    uint8_t *lent = copy_of(game, room);
    *verdict = counted(FITS, zulqenat_fits(book.bytes, book.size, lent, room, length));
    int same = memcmp(lent, game, room) == 0;
    free(lent);
    return is_verdict(*verdict) && holds(same, "a game was changed that is only judged");
}

int length_in(struct book book, const uint8_t *game, size_t room, struct zulqenat_stored *answer)
{
    uint8_t *lent = copy_of(game, room);
    *answer = zulqenat_stored_length(book.bytes, book.size, lent, room);
    int same = memcmp(lent, game, room) == 0;
    free(lent);
    return is_verdict(counted(STORED_LENGTH, answer->verdict)) && holds(same, "a game was changed that is only measured")
        && holds(answer->verdict.number == ACCEPTED ? answer->length <= room : answer->length == 0, "a length that cannot be");
}

/* Makes a call that writes a game. */
static struct zulqenat_round made(struct book book, const struct act *act, const struct lent *lent, size_t length)
{
    struct zulqenat_round round = {{0, 0}, 0, 0, 0, 0};
    struct zulqenat_stored stored = {{0, 0}, 0};
    switch (act->call) {
    case SET_UP:
        stored = zulqenat_set_up(book.bytes, book.size, lent->game, lent->room);
        break;
    case ORDER:
        stored = zulqenat_order(book.bytes, book.size, lent->game, lent->room, length, act->kind, act->number);
        break;
    default:
        return zulqenat_play(book.bytes, book.size, lent->game, lent->room, length, lent->marks, lent->numbers);
    }
    round.verdict = stored.verdict;
    round.length = stored.length;
    return round;
}

/* Whether a refusal left everything as it was and the other numbers of its answer are 0. */
static int refused_well(const struct zulqenat_round *answer, const struct lent *lent)
{
    return holds(answer->length == 0 && answer->passes == 0 && answer->marks == 0 && answer->lost == 0, "a refusal with numbers")
        && holds(memcmp(lent->game, lent->before, lent->room) == 0, "a refusal that changed the game")
        && holds(is_untouched(lent->marks, lent->numbers * sizeof *lent->marks), "a refusal that changed the marks");
}

/* Whether each mark has a routine of the book and a number in its range. */
static int are_marks(const int32_t *marks, size_t count, size_t routines)
{
    int fine = 1;
    for (size_t i = 0; fine && i < count; i++)
        fine = marks[2 * i] >= 0 && (size_t)marks[2 * i] < routines && marks[2 * i + 1] >= -LARGEST_NUMBER
            && marks[2 * i + 1] <= LARGEST_NUMBER;
    return holds(fine, "a mark with a routine or a number that there is not");
}

/* Whether an accepted round has a pass, and as many marks as it says and nothing behind them. */
static int played_well(struct book book, const struct zulqenat_round *answer, const struct lent *lent)
{
    return holds(answer->passes > 0, "a round without a pass") && holds(answer->lost <= MOST_LOST, "more cut off than can be")
        && holds(answer->marks <= lent->numbers / 2 && answer->marks <= ZULQENAT_MARK_NUMBERS / 2, "more marks than can be")
        && are_marks(lent->marks, answer->marks, (size_t)number_at(book.bytes, 2));
}

/* Whether the game that a call has written fits the book, and has the length that the call says by its own counts. */
static int is_game(struct book book, const struct lent *lent, size_t length)
{
    struct zulqenat_verdict fit;
    struct zulqenat_stored found;
    return fit_in(book, lent->game, lent->room, length, &fit) && holds(fit.number == ACCEPTED, "a game was written that does not fit")
        && length_in(book, lent->game, lent->room, &found)
        && holds(found.verdict.number == ACCEPTED && found.length == length, "the length of a game is not found again");
}

/* Whether an accepted call wrote a stored game of the length that it says, and nothing behind it, nor behind the marks. */
static int accepted_well(struct book book, const struct act *act, const struct zulqenat_round *answer, const struct lent *lent)
{
    size_t length = answer->length, written = 2 * answer->marks;
    return holds(length <= lent->room && length <= ZULQENAT_STORED_BYTES, "a game longer than can be")
        && (act->call != PLAY || played_well(book, answer, lent))
        && holds(memcmp(lent->game + length, lent->before + length, lent->room - length) == 0, "written behind the game")
        && holds(is_untouched(lent->marks + written, (lent->numbers - written) * sizeof *lent->marks), "written behind the marks")
        && is_game(book, lent, length);
}

int act_in(struct book book, const struct act *act, const uint8_t *before, size_t room, size_t length, struct result *result)
{
    size_t numbers = act->call == PLAY ? act->numbers : 0;
    struct lent lent = {copy_of(before, room), before, room, memory_of(numbers * sizeof(int32_t)), numbers};
    struct zulqenat_round answer = made(book, act, &lent, length);
    int fine = is_verdict(counted(act->call, answer.verdict));
    if (fine)
        fine = answer.verdict.number == ACCEPTED ? accepted_well(book, act, &answer, &lent) : refused_well(&answer, &lent);
    result->answer = answer;
    if (fine) {
        memcpy(result->game, lent.game, answer.length);
        memcpy(result->marks, lent.marks, 2 * answer.marks * sizeof *lent.marks);
    }
    free(lent.game);
    free(lent.marks);
    return fine;
}

int same_result(const struct result *one, const struct result *other)
{
    const struct zulqenat_round *a = &one->answer, *b = &other->answer;
    return a->verdict.number == b->verdict.number && a->verdict.place == b->verdict.place && a->length == b->length
        && a->passes == b->passes && a->marks == b->marks && a->lost == b->lost && memcmp(one->game, other->game, a->length) == 0
        && memcmp(one->marks, other->marks, 2 * a->marks * sizeof *one->marks) == 0;
}

/* Whether the names rise and are routines of the book, but not routine 0, and nothing is written behind them; none after a refusal. */
static int named_well(struct book book, const struct zulqenat_names *answer, const uint8_t *names, size_t room)
{
    size_t routines = answer->verdict.number == ACCEPTED ? (size_t)number_at(book.bytes, 2) : 1;
    int fine = holds(answer->count < routines && answer->count <= room, "more names than can be");
    for (size_t i = 0; fine && i < answer->count; i++)
        fine = holds(names[i] < routines && names[i] > (i > 0 ? names[i - 1] : 0), "a name that is not right");
    return fine && holds(is_untouched(names + answer->count, room - answer->count), "written behind the names");
}

int names_in(struct book book, size_t room, struct zulqenat_names *answer, uint8_t names[ZULQENAT_ROUTINES])
{
    uint8_t *lent = memory_of(room);
    *answer = zulqenat_unstarted(book.bytes, book.size, lent, room);
    int fine = is_verdict(counted(UNSTARTED, answer->verdict)) && named_well(book, answer, lent, room);
    if (fine)
        memcpy(names, lent, answer->count);
    free(lent);
    return fine;
}
