/* usage: c_vectors SCRIPT ANSWERS [SCRIPT ANSWERS]..
 *
 * Makes the commands of each script by the C calls, and compares what they answer with the lines that are expected. A game is kept as its
 * stored bytes. A poke changes a plain number of the game, which is then stored anew. While the stored form cannot hold a number that was
 * poked, the commands that need the game are skipped; no such game fits, so none of them may be expected to be accepted. Where the stored
 * form holds a number and has a fault by it, the calls tell 13, and the scripts, which keep a game by value, 9. Commands that ask how a
 * round went are skipped, since no call tells. */
#define _POSIX_C_SOURCE 200809L
#include <inttypes.h>
#include <stdarg.h>
#include <stdio.h>
#include <stdlib.h>
#include <string.h>

#include "c_acts.h"
#include "c_bytes.h"
#include "c_form.h"

/* The bytes of the longest answer and of a field's name, the longest buffer that is lent for a stored game, and how many of a hundred
 * commands of a kind have to be made. */
enum { ANSWER_BYTES = 65536, NAME_BYTES = 16, MOST_ROOM = 65536, SHARE = 95 };

/* The current book, the bytes that it has to stay, the current game as plain numbers, and, where it can be stored, as bytes, which may have
 * a fault of form; and how often 13 was told of such a fault. */
struct state {
    struct book book;
    uint8_t *lasting;
    struct plain_game game;
    int storable;
    int formed;
    uint8_t *stored;
    size_t length;
    unsigned long faults;
};

/* A command: whether it needs a game that is stored, what makes it of the words behind its name, how often it was made and its answer was
 * as expected, how often 13 was told in place of 9 in that answer, and how often the command was skipped. */
struct command {
    const char *name;
    int needs_game;
    int (*make)(struct state *state, const char *words);
    unsigned long made;
    unsigned long faults;
    unsigned long skipped;
};

static char answer[ANSWER_BYTES];
static size_t answered;

/* Puts words behind the answer. */
static void tell(const char *format, ...)
{
    va_list words;
    va_start(words, format);
    int size = vsnprintf(answer + answered, ANSWER_BYTES - answered, format, words);
    va_end(words);
    if (size < 0 || (size_t)size >= ANSWER_BYTES - answered) {
        fprintf(stderr, "an answer is too long\n");
        exit(2);
    }
    answered += (size_t)size;
}

/* Puts bytes behind the answer, in hexadecimal digits, and ends the line. */
static void tell_bytes(const uint8_t *bytes, size_t size)
{
    for (size_t i = 0; i < size; i++)
        tell("%02x", bytes[i]);
    tell(size > 0 ? "\n" : "-\n");
}

/* Stores the game where it can be stored. One of the right form has to read back as the same numbers. */
static int store_anew(struct state *state)
{
    struct plain_game again;
    free(state->stored);
    state->storable = can_be_stored(&state->game);
    state->length = state->storable ? stored_size(&state->game) : 0;
    state->stored = memory_of(state->length);
    state->formed = 0;
    if (!state->storable)
        return 1;
    store(&state->game, state->stored);
    state->formed = is_formed(state->stored, state->length);
    if (!state->formed)
        return 1;
    read_formed(state->stored, &again);
    return holds(memcmp(&again, &state->game, sizeof again) == 0, "the game reads back as another");
}

/* Takes stored bytes as the current game. They have to be those that its numbers are stored as. */
static int take(struct state *state, const uint8_t *bytes, size_t length)
{
    if (!holds(is_formed(bytes, length), "an accepted game has not the stored form"))
        return 0;
    read_formed(bytes, &state->game);
    return store_anew(state) && holds(state->length == length && memcmp(state->stored, bytes, length) == 0, "stored as other bytes");
}

/* Makes a verdict of the current game the one that the scripts have, in which a fault of form is one of fitting. Whether such a fault was
 * told as one. */
static int list_verdict(struct state *state, struct zulqenat_verdict *verdict)
{
    if (state->formed)
        return 1;
    if (verdict->number == UNFIT)
        return holds(0, "9 is told of a game that has not the stored form");
    if (verdict->number == NOT_STORED) {
        verdict->number = UNFIT;
        state->faults++;
    }
    return 1;
}

/* Tells a command's name, and number and place of the verdict. */
static void tell_verdict(const char *name, struct zulqenat_verdict verdict)
{
    tell("%s %" PRIu32 " %" PRIu32, name, verdict.number, verdict.place);
}

/* Makes a call that writes a game: in a buffer for every game, and in one of just the bytes that the old and the new game need, which has
 * to give the same. In one that is a byte too short for the new game it has to be refused with 14. */
static int make_act(struct state *state, const struct act *act, struct result *result)
{
    struct result other;
    size_t length = act->call == SET_UP ? 0 : state->length;
    size_t room = state->length > ZULQENAT_STORED_BYTES ? state->length : ZULQENAT_STORED_BYTES;
    uint8_t *before = memory_of(room);
    memcpy(before, state->stored, state->length);
    int fine = act_in(state->book, act, before, room, length, result);
    size_t grown = result->answer.length > length ? result->answer.length : length;
    fine = fine && act_in(state->book, act, before, grown, length, &other)
        && holds(same_result(result, &other), "another answer in a buffer of just the bytes");
    if (fine && grown > length)
        fine = act_in(state->book, act, before, grown - 1, length, &other)
            && holds(other.answer.verdict.number == SHORT_ROOM, "a buffer that is a byte too short is not refused with 14");
    free(before);
    return fine && list_verdict(state, &result->answer.verdict);
}

/* Takes the game that an accepted call has written. */
static int take_result(struct state *state, const struct result *result)
{
    return result->answer.verdict.number != ACCEPTED || take(state, result->game, result->answer.length);
}

/* book: sets the current book, after a look at whether the one before has stayed as it was. */
static int make_book(struct state *state, const char *words)
{
    int fine = holds(memcmp(state->book.bytes, state->lasting, state->book.size) == 0, "a book was changed");
    free(state->book.bytes);
    free(state->lasting);
    state->lasting = bytes_of(words, &state->book.size);
    state->book.bytes = copy_of(state->lasting, state->book.size);
    return fine;
}

/* read: checks the book. */
static int make_read(struct state *state, const char *words)
{
    (void)words;
    tell_verdict("read", verdict_of(state->book));
    tell("\n");
    return 1;
}

/* show: tells the steps of a routine. */
static int make_show(struct state *state, const char *words)
{
    struct zulqenat_part part = part_of(state->book, (uint32_t)strtoul(words, NULL, 10));
    if (!holds(part.offset <= state->book.size && part.length <= state->book.size - part.offset, "a part that the book has not"))
        return 0;
    tell("show ");
    tell_bytes(state->book.bytes + part.offset, part.length);
    return 1;
}

/* setup: sets up a game. */
static int make_setup(struct state *state, const char *words)
{
    (void)words;
    const struct act act = {SET_UP, 0, 0, 0};
    struct result result;
    if (!make_act(state, &act, &result))
        return 0;
    tell_verdict("setup", result.answer.verdict);
    tell("\n");
    return take_result(state, &result);
}

/* order: gives the game an order. */
static int make_order(struct state *state, const char *words)
{
    struct act act = {ORDER, 0, 0, 0};
    struct result result;
    if (!holds(sscanf(words, "%" SCNu32 " %" SCNu32, &act.kind, &act.number) == 2, "not an order") || !make_act(state, &act, &result))
        return 0;
    tell_verdict("order", result.answer.verdict);
    tell("\n");
    return take_result(state, &result);
}

/* round: plays a round, in a buffer for marks of the length that is told, but no longer than the longest. */
static int make_round(struct state *state, const char *words)
{
    size_t numbers = strtoul(words, NULL, 10);
    const struct act act = {PLAY, 0, 0, numbers < ZULQENAT_MARK_NUMBERS ? numbers : ZULQENAT_MARK_NUMBERS};
    struct result result;
    if (!make_act(state, &act, &result))
        return 0;
    tell_verdict("round", result.answer.verdict);
    tell(" %zu %zu %zu\n", result.answer.passes, result.answer.marks, result.answer.lost);
    for (size_t i = 0; i < result.answer.marks; i++)
        tell("mark %" PRId32 " %" PRId32 "\n", result.marks[2 * i], result.marks[2 * i + 1]);
    return take_result(state, &result);
}

/* unstarted: names the routines that nobody starts, in a buffer of the length that is told. */
static int make_unstarted(struct state *state, const char *words)
{
    struct zulqenat_names named;
    uint8_t names[ZULQENAT_ROUTINES];
    if (!names_in(state->book, strtoul(words, NULL, 10), &named, names))
        return 0;
    tell_verdict("unstarted", named.verdict);
    tell(" %zu", named.count);
    for (size_t i = 0; i < named.count; i++)
        tell(" %u", (unsigned)names[i]);
    tell("\n");
    return 1;
}

/* Whether a buffer of `room` bytes is refused with 14 for the game of a set-up just where that is longer, and whether the current game,
 * where it fits and its bytes are cut off behind `room`, is not found there, and otherwise is. */
static int room_is_told(const struct state *state, size_t room)
{
    const struct act act = {SET_UP, 0, 0, 0};
    struct result whole, limited;
    struct zulqenat_stored found;
    uint8_t *before = memory_of(MOST_ROOM);
    memcpy(before, state->stored, state->length);
    int fine = act_in(state->book, &act, before, MOST_ROOM, 0, &whole) && act_in(state->book, &act, before, room, 0, &limited)
        && length_in(state->book, before, room, &found);
    free(before);
    uint32_t number = room < whole.answer.length ? SHORT_ROOM : ACCEPTED;
    size_t length = room < state->length ? 0 : state->length;
    return fine && holds(limited.answer.verdict.number == number, "a set-up in a short buffer is not told as it must")
        && holds(found.length == length, "the game is not found at its length");
}

/* store: tells the bytes of the game, where they are not more than the length that is told. */
static int make_store(struct state *state, const char *words)
{
    size_t room = strtoul(words, NULL, 10);
    struct zulqenat_verdict verdict;
    if (!fit_in(state->book, state->stored, state->length, state->length, &verdict) || !list_verdict(state, &verdict))
        return 0;
    if (verdict.number == ACCEPTED && !room_is_told(state, room < MOST_ROOM ? room : MOST_ROOM))
        return 0;
    if (verdict.number == ACCEPTED && room < state->length)
        verdict.number = SHORT_ROOM;
    size_t length = verdict.number == ACCEPTED ? state->length : 0;
    tell_verdict("store", verdict);
    tell(" %zu ", length);
    tell_bytes(state->stored, length);
    return 1;
}

/* load: judges bytes, and takes them as the game where they fit. */
static int make_load(struct state *state, const char *words)
{
    size_t length;
    uint8_t *bytes = bytes_of(words, &length);
    struct zulqenat_verdict verdict;
    int fine = fit_in(state->book, bytes, length, length, &verdict);
    tell_verdict("load", verdict);
    tell("\n");
    if (fine && verdict.number == ACCEPTED)
        fine = take(state, bytes, length);
    free(bytes);
    return fine;
}

/* poke: overwrites a number of the game. */
static int make_poke(struct state *state, const char *words)
{
    char name[NAME_BYTES];
    unsigned at;
    int32_t number;
    int read = sscanf(words, "%15s %u %" SCNd32, name, &at, &number);
    if (!holds(read == 3 && at < ENTRIES && field_named(name) < FIELDS, "not a poke"))
        return 0;
    state->game.of[field_named(name)][at] = number;
    return store_anew(state);
}

/* Tells the first `count` numbers of a field. */
static void tell_list(const struct plain_game *game, const char *name, enum field field, int64_t count)
{
    tell("%s", name);
    for (int64_t i = 0; i < count; i++)
        tell(" %" PRId64, entry(game, field, (size_t)i));
    tell("\n");
}

/* Tells which entries of a field are set. */
static void tell_set(const struct plain_game *game, const char *name, enum field field)
{
    tell("%s", name);
    for (size_t i = 0; i < ENTRIES; i++)
        if (entry(game, field, i) != 0)
            tell(" %zu", i);
    tell("\n");
}

/* dump: tells the numbers of the game. */
static int make_dump(struct state *state, const char *words)
{
    (void)words;
    static const enum field fields[] = {STAGE, SUSPENDED, PLACE, BEGUN, LEFT};
    const struct plain_game *game = &state->game;
    int64_t routines = entry(game, ROUTINES, 0);
    tell("game %" PRId64 " %" PRId64 " %" PRId64 "\n", routines, entry(game, SIGNALS, 0), entry(game, COUNTERS, 0));
    for (int64_t i = 0; i < routines; i++) {
        tell("routine %" PRId64, i);
        for (size_t field = 0; field < sizeof fields / sizeof fields[0]; field++)
            tell(" %" PRId64, entry(game, fields[field], (size_t)i));
        tell("\n");
    }
    tell_list(game, "counters", COUNTER, entry(game, COUNTERS, 0));
    tell_list(game, "listed", LISTED, entry(game, LISTED_LENGTH, 0));
    tell_list(game, "tostart", TO_START, entry(game, TO_START_LENGTH, 0));
    tell_set(game, "tostop", TO_STOP);
    tell_set(game, "tosuspend", TO_SUSPEND);
    tell_set(game, "toresume", TO_RESUME);
    tell_set(game, "broadcast", BROADCAST);
    return 1;
}

/* The commands; those that nothing makes are always skipped. */
static struct command commands[] = {
    {"book", 0, make_book, 0, 0, 0},
    {"read", 0, make_read, 0, 0, 0},
    {"show", 0, make_show, 0, 0, 0},
    {"setup", 0, make_setup, 0, 0, 0},
    {"order", 1, make_order, 0, 0, 0},
    {"round", 1, make_round, 0, 0, 0},
    {"unstarted", 0, make_unstarted, 0, 0, 0},
    {"store", 1, make_store, 0, 0, 0},
    {"load", 0, make_load, 0, 0, 0},
    {"poke", 0, make_poke, 0, 0, 0},
    {"dump", 1, make_dump, 0, 0, 0},
    {"log", 0, NULL, 0, 0, 0},
    {"facts", 0, NULL, 0, 0, 0},
};

enum { COMMANDS = sizeof commands / sizeof commands[0] };

/* The command that a line begins with; null where there is none. */
static struct command *command_of(const char *line)
{
    size_t size = strcspn(line, " \n");
    for (int i = 0; i < COMMANDS; i++)
        if (strlen(commands[i].name) == size && memcmp(commands[i].name, line, size) == 0)
            return &commands[i];
    return NULL;
}

/* The place behind the line at `text`. */
static const char *next_line(const char *text)
{
    size_t size = strcspn(text, "\n");
    return text + size + (text[size] == '\n');
}

/* The place behind what a skipped command answers, which is one line, and for a dump up to the line of signals. Null where the line says
 * that an order, a round or a storing was accepted, which is wrong of a game that the stored form cannot hold. */
static const char *skipped_answer(const struct command *command, const char *expected)
{
    static const char last[] = "broadcast";
    uint32_t number;
    if (command->make == make_dump)
        while (*expected != '\0' && strncmp(expected, last, sizeof last - 1) != 0)
            expected = next_line(expected);
    else if (command->make != NULL && (sscanf(expected, "%*s %" SCNu32, &number) != 1 || number == ACCEPTED))
        return NULL;
    return next_line(expected);
}

/* The place behind the lines of the answer among those that are expected; null, with the lines that differ first, where they differ. */
static const char *compared(const char *expected)
{
    const char *line = answer;
    while (*line != '\0') {
        size_t size = (size_t)(next_line(line) - line);
        if (strncmp(line, expected, size) != 0) {
            printf("answered: %.*sexpected: %.*s\n", (int)size, line, (int)strcspn(expected, "\n"), expected);
            return NULL;
        }
        line += size;
        expected += size;
    }
    return expected;
}

/* Makes a command or skips it, and gives the place behind its expected answer; null where something went wrong. */
static const char *run_command(struct state *state, const char *line, const char *expected)
{
    struct command *command = command_of(line);
    if (command == NULL)
        return NULL;
    if (command->make == NULL || (command->needs_game && !state->storable)) {
        command->skipped++;
        return skipped_answer(command, expected);
    }
    answered = 0;
    answer[0] = '\0';
    state->faults = 0;
    if (!command->make(state, line + strcspn(line, " ") + (strchr(line, ' ') != NULL)))
        return NULL;
    command->made++;
    command->faults += state->faults;
    return compared(expected);
}

/* The whole content of a file as a text, to be freed by the caller; null where there is none. */
static char *text_of(const char *name)
{
    FILE *file = fopen(name, "r");
    char *text = NULL;
    size_t room = 0;
    if (file == NULL || getdelim(&text, &room, '\0', file) < 0) {
        printf("%s: not there, or empty\n", name);
        free(text);
        text = NULL;
    }
    if (file != NULL)
        fclose(file);
    return text;
}

/* Makes the commands of a script, whose answers are the lines of the text `expected`, and no others. */
static int run_lines(struct state *state, char *script, const char *expected)
{
    unsigned long number = 0;
    for (char *line = strtok(script, "\n"); line != NULL; line = strtok(NULL, "\n")) {
        number++;
        expected = run_command(state, line, expected);
        if (expected == NULL) {
            printf("went wrong at line %lu: %.100s\n", number, line);
            return 0;
        }
    }
    return holds(number > 0 && *expected == '\0', "no commands, or more answers than commands");
}

/* Runs a script and its answers from an empty book and a game that is all 0. */
static int run(const char *script_name, const char *answers_name)
{
    struct state state = {{memory_of(0), 0}, memory_of(0), {{{0}}}, 0, 0, NULL, 0, 0};
    char *script = text_of(script_name), *expected = text_of(answers_name);
    int fine = script != NULL && expected != NULL && store_anew(&state) && run_lines(&state, script, expected) && make_book(&state, "");
    free(state.book.bytes);
    free(state.lasting);
    free(state.stored);
    free(script);
    free(expected);
    return fine;
}

/* Prints how often each command was made and skipped. Whether every command that can be made was, as often as it has to be. */
static int report(void)
{
    unsigned long made = 0, skipped = 0;
    int fine = 1;
    for (int i = 0; i < COMMANDS; i++) {
        const struct command *command = &commands[i];
        printf("%s: %lu made, %lu skipped; %lu told 13 for 9\n", command->name, command->made, command->skipped, command->faults);
        fine = fine && (command->make == NULL || (command->made > 0 && 100 * command->made >= SHARE * (command->made + command->skipped)));
        made += command->made;
        skipped += command->skipped;
    }
    printf("%lu commands made and answered as expected, %lu skipped\n", made, skipped);
    return holds(fine, "too few of a command were made");
}

int main(int argc, char **argv)
{
    int fine = holds(argc >= 3 && argc % 2 == 1, "usage: c_vectors SCRIPT ANSWERS [SCRIPT ANSWERS]..");
    for (int i = 1; fine && i + 1 < argc; i += 2)
        fine = run(argv[i], argv[i + 1]);
    return fine && report() ? 0 : 1;
}
