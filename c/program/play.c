#include <errno.h>
#include <inttypes.h>
#include <stdio.h>
#include <stdlib.h>
#include <string.h>

#include "arguments.h"
#include "book.h"
#include "commands.h"
#include "files.h"
#include "orders.h"
#include "stored_game.h"
#include "words.h"

static const char HELP[] =
    "usage: zulqenat play FILE [--rounds N] [--orders FILE] [--game FILE] [--save FILE]\n"
    "\n"
    "Plays the book in FILE and prints a line for each round, with its passes and\n"
    "marks, and a line for each mark, with its routine and number. The play is over\n"
    "when no routine is to start, every routine of the playing order has ended, and\n"
    "no order for a later round is left.\n"
    "\n"
    "  --rounds N     play at most N rounds, 100 if this is not given\n"
    "  --orders FILE  give the orders in FILE, a line ROUND KIND NUMBER each: ROUND\n"
    "                 counts from 1, the first round of this run; KIND is 0 to 4 or\n"
    "                 broadcast, start, stop, suspend, resume; NUMBER is the signal\n"
    "                 or the routine. Orders are given before their round is played,\n"
    "                 in the order of the lines. Empty lines and lines that begin\n"
    "                 with # are skipped. Orders for rounds that are not played are\n"
    "                 told, and not given.\n"
    "  --game FILE    begin with the stored game in FILE, not with a game set up\n"
    "  --save FILE    store the game behind the last round in FILE; nothing is\n"
    "                 stored where an order is refused\n";

/* The rounds that are played at most where --rounds is not given. */
enum { MOST_ROUNDS = 100 };

/* The last refusal that is one of a book, and that of an order for its kind or number. */
enum { LAST_BOOK_REFUSAL = 7, WRONG_ORDER = 8 };

/* The arguments of the command. */
enum { BOOK_FILE, ROUNDS_WORD, ORDERS_FILE, GAME_FILE, SAVE_FILE, ARGUMENTS };

/* A book, a game of it in a buffer of `room` bytes, and orders, of which the first `given` have been given. The files are those that
 * messages name. */
struct play {
    const char *book_file;
    const char *orders_file;
    uint8_t *book;
    size_t size;
    uint8_t *game;
    size_t room;
    size_t length;
    struct orders orders;
    size_t given;
};

/* Tells a refusal of the file, or of its line where that is not 0, if there is one. The answer is the exit status. */
static int tell(const char *file, size_t line, struct zulqenat_verdict verdict)
{
    if (verdict.number == 0)
        return DONE;
    fflush(stdout);
    fprintf(stderr, "%s:", file);
    if (line > 0)
        fprintf(stderr, "%zu:", line);
    fprintf(stderr, " refused %" PRIu32 ": %s\n", verdict.number, refusal_meaning(verdict.number));
    return REFUSED;
}

/* Tells that an order is refused for its number: what it orders, and which numbers the book has. */
static int tell_order(const struct play *play, const struct order *order)
{
    int is_signal = order->kind == ZULQENAT_BROADCAST;
    const char *what = is_signal ? "signals" : "routines";
    unsigned count = number_at(play->book, is_signal ? AT_SIGNALS : AT_ROUTINES);
    fflush(stdout);
    fprintf(stderr, "%s:%zu: refused %d: ", play->orders_file, order->line, WRONG_ORDER);
    write_order(stderr, order->kind, order->number);
    if (count == 0)
        fprintf(stderr, ": the book has no %s\n", what);
    else
        fprintf(stderr, ": the book has %s 0 to %u\n", what, count - 1);
    return REFUSED;
}

/* Makes the buffer for the game, with the bytes of a stored game in front where there is a file; 0 where that cannot be. */
static int read_game(struct play *play, const char *file)
{
    uint8_t *bytes = NULL;
    if (file != NULL) {
        bytes = read_file(file, &play->length);
        if (bytes == NULL)
            return 0;
    }
    play->room = play->length > ZULQENAT_STORED_BYTES ? play->length : ZULQENAT_STORED_BYTES;
    play->game = realloc(bytes, play->room);
    if (play->game != NULL)
        return 1;
    free(bytes);
    fprintf(stderr, "%s: %s\n", play->book_file, strerror(ENOMEM));
    return 0;
}

/* Reads all files; 0 where one cannot be read or has wrong lines. */
static int read_files(struct play *play, const char *game_file)
{
    play->book = read_file(play->book_file, &play->size);
    return play->book != NULL && (play->orders_file == NULL || read_orders(play->orders_file, &play->orders)) && read_game(play, game_file);
}

/* Checks the book, and checks the stored game or sets a game up. */
static int begin(struct play *play, const char *game_file)
{
    struct zulqenat_verdict verdict;
    if (game_file != NULL) {
        verdict = zulqenat_fits(play->book, play->size, play->game, play->room, play->length);
    } else {
        struct zulqenat_stored set_up = zulqenat_set_up(play->book, play->size, play->game, play->room);
        verdict = set_up.verdict;
        play->length = set_up.length;
    }
    if (verdict.number == 0 || verdict.number > LAST_BOOK_REFUSAL)
        return tell(game_file != NULL ? game_file : play->book_file, 0, verdict);
    printf("refused %" PRIu32 " %" PRIu32 "\n", verdict.number, verdict.place);
    fflush(stdout);
    print_book_refusal(stderr, play->book_file, play->book, play->size, verdict);
    return REFUSED;
}

/* Whether the play is over: every routine of the playing order has ended and none is to start. */
static int is_over(const uint8_t *game)
{
    size_t listed = number_at(game, AT_LISTS_OFFSET);
    size_t count = number_at(game, listed);
    int over = number_at(game, listed + COUNT_BYTES + count) == 0;
    for (size_t i = 0; i < count; i++)
        over = over && standing_of(game, game[listed + COUNT_BYTES + i]).stage == ZULQENAT_ENDED;
    return over;
}

/* Gives the orders of a round. */
static int give_orders(struct play *play, uint32_t round)
{
    while (play->given < play->orders.count && play->orders.all[play->given].round == round) {
        const struct order *order = &play->orders.all[play->given];
        struct zulqenat_stored answer =
            zulqenat_order(play->book, play->size, play->game, play->room, play->length, order->kind, order->number);
        if (answer.verdict.number == WRONG_ORDER)
            return tell_order(play, order);
        if (answer.verdict.number != 0)
            return tell(play->orders_file, order->line, answer.verdict);
        play->length = answer.length;
        play->given++;
    }
    return DONE;
}

/* Plays a round and prints its lines. */
static int play_round(struct play *play, uint32_t round)
{
    static int32_t marks[ZULQENAT_MARK_NUMBERS];
    struct zulqenat_round played =
        zulqenat_play(play->book, play->size, play->game, play->room, play->length, marks, ZULQENAT_MARK_NUMBERS);
    if (played.verdict.number != 0)
        return tell(play->book_file, 0, played.verdict);
    play->length = played.length;
    printf("round %" PRIu32 " passes %zu marks %zu\n", round, played.passes, played.marks);
    for (size_t i = 0; i < played.marks; i++)
        printf("mark %" PRId32 " %" PRId32 "\n", marks[2 * i], marks[2 * i + 1]);
    return DONE;
}

/* Gives the orders of each round and plays it, until the play is over and no order is left, or until `most` rounds are played. */
static int play_rounds(struct play *play, uint32_t most)
{
    int status = DONE;
    for (uint32_t played = 0; played < most && status == DONE; played++) {
        if (is_over(play->game) && play->given == play->orders.count)
            break;
        status = give_orders(play, played + 1);
        if (status == DONE)
            status = play_round(play, played + 1);
    }
    return status;
}

/* Tells which orders were not given, since their rounds were not played. */
static void tell_not_given(const struct play *play)
{
    fflush(stdout);
    for (size_t i = play->given; i < play->orders.count; i++) {
        const struct order *order = &play->orders.all[i];
        fprintf(stderr, "%s:%zu: not given: round %" PRIu32 " was not played\n", play->orders_file, order->line, order->round);
    }
}

/* Runs the command, with its arguments sorted. */
static int run(struct play *play, const struct argument *arguments, uint32_t most)
{
    const char *save_file = arguments[SAVE_FILE].word;
    if (!read_files(play, arguments[GAME_FILE].word))
        return WRONG_USE;
    int status = begin(play, arguments[GAME_FILE].word);
    if (status == DONE)
        status = play_rounds(play, most);
    if (status == DONE)
        tell_not_given(play);
    if (status == DONE && save_file != NULL && !write_file(save_file, play->game, play->length))
        return WRONG_USE;
    return status;
}

/* Sorts the arguments, runs the command and frees what it holds. */
int play_command(int argc, char **argv)
{
    static const char command[] = "zulqenat play";
    struct argument arguments[ARGUMENTS] = {
        [BOOK_FILE] = {"FILE", 1, NULL},
        [ROUNDS_WORD] = {"--rounds", 0, NULL},
        [ORDERS_FILE] = {"--orders", 0, NULL},
        [GAME_FILE] = {"--game", 0, NULL},
        [SAVE_FILE] = {"--save", 0, NULL},
    };
    int status = read_arguments(argc, argv, command, HELP, arguments, ARGUMENTS);
    if (status != GO_ON)
        return status;
    uint32_t most = MOST_ROUNDS;
    if (arguments[ROUNDS_WORD].word != NULL && !read_number(arguments[ROUNDS_WORD].word, &most))
        return wrong_use(command, arguments[ROUNDS_WORD].word, NOT_A_NUMBER);
    struct play play = {.book_file = arguments[BOOK_FILE].word, .orders_file = arguments[ORDERS_FILE].word};
    status = run(&play, arguments, most);
    free(play.book);
    free(play.game);
    free(play.orders.all);
    return status;
}
