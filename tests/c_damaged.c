/* usage: c_damaged SHARE <LINES
 *
 * Reads lines of number, place and book, of which every SHARE-th is taken: makes every call with each book, as it is and damaged in several
 * ways, and with games out of a few rounds with orders, as they are and damaged, in buffers of many lengths. Which number has to be told is
 * worked out: 1 to 7 are those of zulqenat_check_book, 13 and 9 come from the stored form and the rules of fitting, 8 and 10 from the book,
 * and 14 from what the same call writes in a buffer for every game. At the end, bytes far longer than any book or game.
 * What is lent lies in memory of just its length, so that valgrind sees a read or a write before or behind it. */
#define _POSIX_C_SOURCE 200809L
#include <inttypes.h>
#include <stdio.h>
#include <stdlib.h>
#include <string.h>

#include "c_acts.h"
#include "c_bytes.h"
#include "c_form.h"
#include "c_right.h"

/* How many ways a book is damaged, and a game with an accepted and with a refused book; how many rounds a game is played, how many orders
 * are given before each, how many orders and rounds each game is tried with, and the most bytes that are put behind a book or a game. */
enum { BOOK_WAYS = 10, GAME_WAYS = 32, REFUSED_WAYS = 2, ROUNDS = 4, ORDERS = 3, TRIALS = 2, MOST_ADDED = 16 };

/* The bytes of a stored game's header and of a record. */
enum { GAME_HEADER = 14, RECORD = 8 };

/* The buffer that damaged games lie in, and bytes far longer than any book or game. */
enum { GAME_ROOM = ZULQENAT_STORED_BYTES + 64, LONG = 100000 };

/* Bytes that are taken as a stored game, and behind them whatever the buffer holds. */
struct kept {
    uint8_t bytes[GAME_ROOM];
    size_t length;
};

/* The calls and the numbers that each may tell, a bit each. */
enum { BOOK_NUMBERS = 0xff, GAME_NUMBERS = BOOK_NUMBERS | 1 << UNFIT | 1 << NOT_STORED };

static const struct {
    const char *name;
    unsigned numbers;
} calls[CALLS] = {
    [CHECK_BOOK] = {"check_book", BOOK_NUMBERS},
    [UNSTARTED] = {"unstarted", BOOK_NUMBERS | 1 << FEW_NAMES},
    [SHOW] = {"show", 1 << ACCEPTED},
    [FITS] = {"fits", GAME_NUMBERS},
    [STORED_LENGTH] = {"stored_length", GAME_NUMBERS},
    [SET_UP] = {"set_up", BOOK_NUMBERS | 1 << SHORT_ROOM},
    [ORDER] = {"order", GAME_NUMBERS | 1 << WRONG_ORDER | 1 << SHORT_ROOM},
    [PLAY] = {"play", GAME_NUMBERS | 1 << FEW_NUMBERS | 1 << SHORT_ROOM},
};

/* How often the calls that take a game were made with bytes of one. */
static unsigned long games;

static uint64_t state = 1;

/* The next pseudo-random number below end, which is not 0 (xorshift). */
static size_t below(size_t end)
{
    state ^= state << 13;
    state ^= state >> 7;
    state ^= state << 17;
    return (size_t)(state % end);
}

/* The larger of two numbers. */
static size_t larger(size_t one, size_t other)
{
    return one > other ? one : other;
}

/* Whether a verdict has this number, and the book's place where the book is refused. */
static int is_told(const struct checked *checked, struct zulqenat_verdict verdict, uint32_t number)
{
    if (verdict.number == number && (number >= WRONG_ORDER || verdict.place == checked->verdict.place))
        return 1;
    printf("told %" PRIu32 " %" PRIu32 ", not %" PRIu32 "\n", verdict.number, verdict.place, number);
    return 0;
}

/* Gives the condition back, and says which call it was about where it does not hold. */
static int of_call(int condition, const struct act *act, size_t room, size_t length)
{
    if (!condition)
        printf("call %s of kind %" PRIu32 ", number %" PRIu32 ", numbers %zu, room %zu and length %zu\n", calls[act->call].name, act->kind,
               act->number, act->numbers, room, length);
    return condition;
}

/* Makes a call in a buffer of `room` bytes: it has to be told 14 where nothing else is refused and what the call writes in a buffer for
 * every game is longer, and otherwise to give the same as there. */
static int check_room(const struct checked *checked, const struct act *act, const uint8_t *before, size_t room, size_t length,
                      const struct result *whole)
{
    struct result result;
    uint32_t number = act_number(checked, act, before, room, length);
    if (number == ACCEPTED && room < whole->answer.length)
        number = SHORT_ROOM;
    int fine = act_in(checked->book, act, before, room, length, &result) && is_told(checked, result.answer.verdict, number)
        && (number != ACCEPTED || holds(same_result(&result, whole), "another answer in a buffer of another length"));
    return of_call(fine, act, room, length);
}

/* Makes a call in a buffer for every game, with other bytes behind the game too, which may not matter; the answer is left in `whole`. */
static int check_whole(const struct checked *checked, const struct act *act, const struct kept *kept, size_t room, struct result *whole)
{
    struct result result;
    uint8_t other[GAME_ROOM], changed = (uint8_t)(1 + below(255));
    for (size_t i = 0; i < GAME_ROOM; i++)
        other[i] = i < kept->length ? kept->bytes[i] : kept->bytes[i] ^ changed;
    uint32_t number = act_number(checked, act, kept->bytes, room, kept->length);
    int fine = act_in(checked->book, act, kept->bytes, room, kept->length, whole) && is_told(checked, whole->answer.verdict, number)
        && act_in(checked->book, act, other, room, kept->length, &result)
        && holds(same_result(&result, whole), "another answer with other bytes behind the game");
    return of_call(fine, act, room, kept->length);
}

/* The bytes of a buffer that is long enough for the game and for every game. */
static size_t whole_room(const struct kept *kept)
{
    return kept->length > GAME_ROOM ? GAME_ROOM : larger(kept->length, ZULQENAT_STORED_BYTES);
}

/* Makes a call in a buffer for every game and in shorter ones about the lengths of the old and of the new game. */
static int check_act(const struct checked *checked, const struct act *act, const struct kept *kept, struct result *whole)
{
    size_t room = whole_room(kept);
    int fine = check_whole(checked, act, kept, room, whole);
    size_t length = kept->length, written = fine ? whole->answer.length : 0;
    const size_t rooms[] = {0, GAME_HEADER, length - 1, length, written - 1, written, written + 1, below(room)};
    for (size_t i = 0; fine && i < sizeof rooms / sizeof rooms[0]; i++)
        fine = rooms[i] > room || check_room(checked, act, kept->bytes, rooms[i], length, whole);
    return fine;
}

/* Makes a call in every buffer that is not longer than one for every game. */
static int check_every_room(const struct checked *checked, const struct act *act, const struct kept *kept)
{
    struct result whole;
    int fine = check_whole(checked, act, kept, whole_room(kept), &whole);
    for (size_t room = 0; fine && room <= ZULQENAT_STORED_BYTES; room++)
        fine = check_room(checked, act, kept->bytes, room, kept->length, &whole);
    return fine;
}

/* Judges the first `length` bytes of a buffer of `room` bytes. */
static int check_fit(const struct checked *checked, const uint8_t *bytes, size_t room, size_t length)
{
    struct zulqenat_verdict verdict;
    return fit_in(checked->book, bytes, room, length, &verdict)
        && is_told(checked, verdict, fit_number(checked, bytes, room, length));
}

/* Measures the game that a buffer of `room` bytes begins with. */
static int check_length(const struct checked *checked, const uint8_t *bytes, size_t room)
{
    struct zulqenat_stored answer;
    size_t end = end_of(bytes, room);
    uint32_t number = fit_number(checked, bytes, room, end);
    return length_in(checked->book, bytes, room, &answer) && is_told(checked, answer.verdict, number)
        && holds(answer.length == (number == ACCEPTED ? end : 0), "another length than the game has");
}

/* Judges and measures bytes in buffers and with lengths from 0 to beyond. */
static int check_lengths(const struct checked *checked, const struct kept *kept)
{
    size_t most = whole_room(kept), length = kept->length;
    const size_t rooms[] = {0, 1, GAME_HEADER - 1, GAME_HEADER, length - 1, length, length + 1, most, below(most)};
    int fine = 1;
    for (size_t i = 0; fine && i < sizeof rooms / sizeof rooms[0]; i++) {
        size_t room = rooms[i] > most ? most : rooms[i];
        fine = check_length(checked, kept->bytes, room) && check_fit(checked, kept->bytes, room, length)
            && check_fit(checked, kept->bytes, room, room) && check_fit(checked, kept->bytes, room, room + 1)
            && check_fit(checked, kept->bytes, room, SIZE_MAX) && check_fit(checked, kept->bytes, room, below(room + 2));
    }
    return fine;
}

/* An order of any kind, with a number that may be at the edge of its count. */
static struct act any_order(const struct checked *checked)
{
    static const uint32_t kinds[] = {0, 1, 2, 3, 4, 5, 6, UINT32_MAX};
    uint32_t kind = kinds[below(sizeof kinds / sizeof kinds[0])];
    size_t count = kind == ZULQENAT_BROADCAST ? checked->signals : checked->routines;
    const size_t numbers[] = {0, count - 1, count, count + 1, UINT32_MAX, UINT32_MAX - 1, below(count + 1), below(count + 1)};
    return (struct act){ORDER, kind, (uint32_t)numbers[below(sizeof numbers / sizeof numbers[0])], 0};
}

/* A round with a buffer for marks that may be too short. */
static struct act any_round(const struct checked *checked)
{
    size_t enough = 2 * checked->mark_steps;
    const size_t numbers[] = {0, enough - 1, enough / 2, enough, enough + 1, enough + below(9), ZULQENAT_MARK_NUMBERS};
    size_t chosen = numbers[below(sizeof numbers / sizeof numbers[0])];
    return (struct act){PLAY, 0, 0, chosen <= ZULQENAT_MARK_NUMBERS ? chosen : 0};
}

/* Makes all calls that take a game with these bytes: judging, measuring, setting up in their place, a few orders and a round. */
static int check_game(const struct checked *checked, const struct kept *kept)
{
    struct result result;
    struct act act = {SET_UP, 0, 0, 0};
    games++;
    int fine = check_lengths(checked, kept) && check_act(checked, &act, kept, &result);
    for (int trial = 0; fine && trial < TRIALS; trial++) {
        act = any_order(checked);
        fine = check_act(checked, &act, kept, &result);
        act = any_round(checked);
        fine = fine && check_act(checked, &act, kept, &result);
    }
    return fine;
}

/* Exchanges the two lists of a stored game. */
static void exchange_lists(struct kept *kept)
{
    struct plain_game game, other;
    read_formed(kept->bytes, &game);
    other = game;
    memcpy(other.of[LISTED], game.of[TO_START], sizeof game.of[TO_START]);
    memcpy(other.of[TO_START], game.of[LISTED], sizeof game.of[LISTED]);
    other.of[LISTED_LENGTH][0] = game.of[TO_START_LENGTH][0];
    other.of[TO_START_LENGTH][0] = game.of[LISTED_LENGTH][0];
    store(&other, kept->bytes);
}

/* Damages a game: a byte, the header, a record, a bit about its end, its length, all bytes, or the lists. */
static void damage_game(struct kept *kept)
{
    uint8_t *bytes = kept->bytes;
    size_t length = kept->length;
    switch (below(9)) {
    case 0:
        bytes[below(length)] = (uint8_t)below(256);
        break;
    case 1:
        bytes[below(GAME_HEADER)] ^= (uint8_t)(1 << below(8));
        break;
    case 2:
        bytes[GAME_HEADER + below((length - GAME_HEADER) / RECORD * RECORD)] = (uint8_t)below(6);
        break;
    case 3:
        bytes[length - 1 - below(larger(length / 4, 1))] ^= (uint8_t)(1 << below(8));
        break;
    case 4:
        kept->length = below(length);
        break;
    case 5:
        kept->length += 1 + below(MOST_ADDED);
        break;
    case 6:
        kept->length = below(2) == 0 ? SIZE_MAX : GAME_ROOM + below(GAME_ROOM);
        break;
    case 7:
        kept->length = below(GAME_ROOM);
        for (size_t i = 0; i < GAME_ROOM; i++)
            bytes[i] = (uint8_t)below(256);
        break;
    default:
        exchange_lists(kept);
    }
}

/* Makes all calls with a fitting game as it is, and then damaged. */
static int check_damaged_games(const struct checked *checked, const struct kept *kept)
{
    int ways = checked->verdict.number == ACCEPTED ? GAME_WAYS : REFUSED_WAYS;
    int fine = check_game(checked, kept);
    for (int way = 0; fine && way < ways; way++) {
        struct kept damaged = *kept;
        damage_game(&damaged);
        fine = check_game(checked, &damaged);
    }
    return fine;
}

/* Takes the game that a call has written in the place of the one before, where the call was accepted. */
static void take_result(const struct result *result, struct kept *kept)
{
    if (result->answer.verdict.number == ACCEPTED) {
        memcpy(kept->bytes, result->game, result->answer.length);
        kept->length = result->answer.length;
    }
}

/* Makes a call with a game as it is, in every buffer where it is told to, and takes the game that it has written. */
static int go_on(const struct checked *checked, struct act act, int every_room, struct kept *kept)
{
    struct result result;
    if (!check_act(checked, &act, kept, &result) || (every_room && !check_every_room(checked, &act, kept)))
        return 0;
    take_result(&result, kept);
    return 1;
}

/* Plays a few rounds from set-up with orders before each, and makes all calls with the games; the last game is left in `kept`. Of a play in
 * every buffer, set-up and the second round are made so. */
static int check_play(const struct checked *checked, int every_room, struct kept *kept)
{
    int fine = go_on(checked, (struct act){SET_UP, 0, 0, 0}, every_room, kept) && check_damaged_games(checked, kept);
    for (int round = 0; fine && round < ROUNDS; round++) {
        int in_each = every_room && round == 1;
        for (int i = 0; fine && i < ORDERS; i++)
            fine = go_on(checked, any_order(checked), 0, kept);
        fine = fine && go_on(checked, (struct act){ORDER, ZULQENAT_START, (uint32_t)below(checked->routines), 0}, in_each, kept)
            && go_on(checked, (struct act){PLAY, 0, 0, 2 * checked->mark_steps}, in_each, kept) && check_damaged_games(checked, kept);
    }
    return fine;
}

/* Names the routines that nobody starts, with too little room, with just enough and with more, also for a refused book. */
static int check_names(const struct checked *checked)
{
    struct zulqenat_names answer;
    uint8_t names[ZULQENAT_ROUTINES];
    size_t needed = checked->book.size > 0 ? checked->book.bytes[0] : 0;
    const size_t rooms[] = {0, needed > 0 ? needed - 1 : 0, needed, needed + 9};
    int fine = 1;
    for (size_t i = 0; fine && i < sizeof rooms / sizeof rooms[0]; i++) {
        uint32_t number = rooms[i] < checked->routines ? FEW_NAMES : checked->verdict.number;
        fine = names_in(checked->book, rooms[i], &answer, names) && is_told(checked, answer.verdict, number);
    }
    return fine;
}

/* Shows routines of the book and others. */
static int check_parts(const struct checked *checked)
{
    uint32_t count = (uint32_t)checked->routines;
    const uint32_t routines[] = {0, (uint32_t)below(count + 1), count - 1, count, count + 1, 256, 65536, UINT32_MAX};
    int fine = 1;
    for (size_t i = 0; fine && i < sizeof routines / sizeof routines[0]; i++) {
        struct zulqenat_part part = part_of(checked->book, routines[i]), right = right_part(checked, routines[i]);
        fine = holds(part.offset == right.offset && part.length == right.length, "another part than the routine's");
    }
    return fine;
}

/* Makes every call with a book in memory of its own; the book must stay as it is. Where a verdict is expected, it must be that one. An
 * accepted book leaves its last game in `kept`, with which refused books are tried. */
static int check_calls(const uint8_t *bytes, size_t size, const struct zulqenat_verdict *expected, struct kept *kept)
{
    struct checked checked = checked_book((struct book){copy_of(bytes, size), size});
    struct zulqenat_verdict verdict = checked.verdict;
    int fine = holds(verdict.number < WRONG_ORDER && (verdict.number != ACCEPTED || verdict.place == 0), "a verdict that there is not");
    if (expected != NULL)
        fine = fine && holds(verdict.number == expected->number && verdict.place == expected->place, "another verdict than expected");
    fine = fine && check_names(&checked) && check_parts(&checked)
        && (verdict.number == ACCEPTED ? check_play(&checked, expected != NULL, kept) : check_damaged_games(&checked, kept))
        && holds(memcmp(checked.book.bytes, bytes, size) == 0, "a book was changed");
    free(checked.book.bytes);
    return fine;
}

/* Damages a book, which has room for MOST_ADDED more bytes: a byte, the header, an op or the length. */
static void damage_book(uint8_t *book, size_t *size)
{
    size_t added;
    switch (below(5)) {
    case 0:
        if (*size > 0)
            book[below(*size)] = (uint8_t)below(256);
        break;
    case 1:
        if (*size >= BOOK_HEADER)
            book[below(BOOK_HEADER)] = (uint8_t)below(256);
        break;
    case 2:
        if (*size >= BOOK_HEADER + STEP)
            book[*size - STEP * (1 + below((*size - BOOK_HEADER) / STEP))] = (uint8_t)below(22);
        break;
    case 3:
        *size = below(*size + 1);
        break;
    default:
        added = 1 + below(MOST_ADDED);
        memset(book + *size, (int)below(256), added);
        *size += added;
    }
}

/* Makes every call with a line's book as it is, and then damaged in BOOK_WAYS ways. */
static int check_line(const char *line, struct kept *kept)
{
    struct zulqenat_verdict expected;
    const char *text = strrchr(line, ' ');
    size_t size;
    if (text == NULL || sscanf(line, "%" SCNu32 " %" SCNu32, &expected.number, &expected.place) != 2)
        return 0;
    uint8_t *book = bytes_of(text + 1, &size);
    int fine = check_calls(book, size, &expected, kept);
    for (int way = 0; fine && way < BOOK_WAYS; way++) {
        size_t length = size;
        uint8_t *damaged = memory_of(size + MOST_ADDED);
        memcpy(damaged, book, size);
        damage_book(damaged, &length);
        fine = check_calls(damaged, length, NULL, kept);
        free(damaged);
    }
    free(book);
    return fine;
}

/* The book of a routine without steps. */
static const uint8_t small_book[] = {1, 0, 0, 0, 0, 0, 0, 0, BOOK_HEADER, 0, BOOK_HEADER + DIRECTORY_ENTRY, 0, 0, 0, 0, 0};

/* Makes every call with LONG zeros as a book, of which the number of routines is out of range; and with the small book and other bytes
 * behind it up to LONG, whose length is wrong. */
static int check_long_books(struct kept *kept)
{
    static const struct zulqenat_verdict wrong_count = {2, 0}, wrong_length = {3, 0};
    static uint8_t bytes[LONG];
    if (!check_calls(bytes, LONG, &wrong_count, kept))
        return 0;
    memset(bytes, 6, LONG);
    memcpy(bytes, small_book, sizeof small_book);
    return check_calls(bytes, LONG, &wrong_length, kept);
}

/* Makes the calls that take a game with one of the small book at the front of LONG bytes, and with all LONG bytes as a game. */
static int check_long_games(const struct kept *kept)
{
    static const struct act acts[] = {{SET_UP, 0, 0, 0}, {ORDER, ZULQENAT_START, 0, 0}, {PLAY, 0, 0, 0}};
    static uint8_t bytes[LONG];
    struct checked checked = checked_book((struct book){copy_of(small_book, sizeof small_book), sizeof small_book});
    memcpy(bytes, kept->bytes, kept->length);
    int fine = check_length(&checked, bytes, LONG) && check_fit(&checked, bytes, LONG, kept->length)
        && check_fit(&checked, bytes, LONG, LONG);
    for (size_t i = 0; fine && i < sizeof acts / sizeof acts[0]; i++) {
        struct result whole;
        fine = check_act(&checked, &acts[i], kept, &whole) && check_room(&checked, &acts[i], bytes, LONG, kept->length, &whole)
            && check_room(&checked, &acts[i], bytes, LONG, LONG, &whole) && check_room(&checked, &acts[i], bytes, LONG, SIZE_MAX, &whole);
    }
    free(checked.book.bytes);
    return fine;
}

/* Prints how often a call told each number. Whether it told those that it may, and no others. */
static int report_call(enum call call)
{
    int fine = 1;
    printf("%s told", calls[call].name);
    for (int number = 0; number < NUMBERS_TOLD; number++) {
        if (told[call][number] > 0)
            printf(" %d: %lu", number, told[call][number]);
        fine = fine && (told[call][number] > 0) == (calls[call].numbers >> number & 1);
    }
    printf("\n");
    return holds(fine, "that is a number too many or too few");
}

/* Makes every call with the books of every share-th line of standard input, and then with bytes longer than any book or game. */
static int check_lines(unsigned long share)
{
    static const struct zulqenat_verdict accepted = {0, 0};
    static struct kept kept;
    int fine = check_calls(small_book, sizeof small_book, &accepted, &kept);
    struct kept small = kept;
    char *line = NULL;
    size_t room = 0;
    unsigned long lines = 0;
    while (fine && getline(&line, &room, stdin) > 0)
        if (lines++ % share == 0 && !check_line(line, &kept)) {
            printf("went wrong at: %s", line);
            fine = 0;
        }
    free(line);
    return fine && holds(lines > 0, "no books")
        && holds(check_long_books(&kept) && check_long_games(&small), "went wrong at bytes longer than any book or game");
}

int main(int argc, char **argv)
{
    unsigned long share = argc == 2 ? strtoul(argv[1], NULL, 10) : 0, books = 0;
    int fine = holds(share > 0, "usage: c_damaged SHARE <LINES") && check_lines(share);
    for (int call = 0; fine && call < CALLS; call++)
        fine = report_call((enum call)call);
    for (int number = 0; number < NUMBERS_TOLD; number++)
        books += told[CHECK_BOOK][number];
    if (fine)
        printf("%lu books and %lu games, damaged or not\n", books, games);
    return fine ? 0 : 1;
}
