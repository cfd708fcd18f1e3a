#include "site_items.h"

#include <inttypes.h>
#include <stdlib.h>
#include <string.h>

#include "stored_game.h"
#include "site_plays.h"
#include "site_text.h"
#include "words.h"

/* Room for the words that a refusal must have. */
enum { PHRASE = 80 };

static const char NO_MEMORY[] = "no memory to look at it";

/* Writes the lines of a text as one, without a line end. */
static void write_in_a_line(FILE *out, const char *text)
{
    for (; *text != '\0'; text++)
        if (*text != '\n')
            putc(*text, out);
        else if (text[1] != '\0')
            fprintf(out, "; ");
}

/* Writes what a call answered of its input. */
static void write_verdict(FILE *out, struct zulqenat_verdict verdict)
{
    if (verdict.number == 0)
        fprintf(out, "accepted");
    else
        fprintf(out, "refused %" PRIu32 " %" PRIu32, verdict.number, verdict.place);
}

/* Checks a built-in book, whose answer must be the expected one. */
static int verdict_holds(FILE *out, const char *name, const uint8_t *book, size_t size, struct zulqenat_verdict expected)
{
    struct zulqenat_verdict found = zulqenat_check_book(book, size);
    if (found.number == expected.number && found.place == expected.place)
        return 1;
    fprintf(out, "book \"%s\": expected ", name);
    write_verdict(out, expected);
    fprintf(out, "; found ");
    write_verdict(out, found);
    return 0;
}

/* A book that was refused as it should be. */
struct refused {
    const struct site_faulty_book *faulty;
    const uint8_t *book;
    size_t size;
};

/* Writes what the program tells of a refused book. */
static void write_refusal(FILE *out, const void *what)
{
    const struct refused *refused = what;
    print_book_refusal(out, "built-in book", refused->book, refused->size, refused->faulty->verdict);
}

/* Whether what the program tells of a refused book has the number and place of the refusal, and the routine with the place in it. */
static int words_hold(FILE *out, const struct site_faulty_book *faulty, const uint8_t *book, size_t size)
{
    char refusal[PHRASE], step[PHRASE];
    snprintf(refusal, sizeof refusal, "refused %" PRIu32 " %" PRIu32 ":", faulty->verdict.number, faulty->verdict.place);
    snprintf(step, sizeof step, "routine %u, place %u:", faulty->routine, faulty->own_place);
    size_t length;
    char *text = site_text_of(write_refusal, &(struct refused){faulty, book, size}, &length);
    int told = text != NULL && strstr(text, refusal) != NULL && strstr(text, step) != NULL;
    if (!told) {
        fprintf(out, "book \"%s\": expected words with \"%s\" and \"%s\"; found \"", faulty->name, refusal, step);
        write_in_a_line(out, text != NULL ? text : NO_MEMORY);
        fprintf(out, "\"");
    }
    free(text);
    return told;
}

static int sound_books_hold(FILE *out)
{
    static const struct zulqenat_verdict accepted = {0, 0};
    uint8_t book[ZULQENAT_BOOK_BYTES];
    for (size_t i = 0; i < site_play_count; i++) {
        size_t size = site_make_book(&site_plays[i].table, book);
        if (!verdict_holds(out, site_plays[i].name, book, size, accepted))
            return 0;
    }
    return 1;
}

static int faulty_books_hold(FILE *out)
{
    uint8_t book[ZULQENAT_BOOK_BYTES];
    for (size_t i = 0; i < site_faulty_book_count; i++) {
        const struct site_faulty_book *faulty = &site_faulty_books[i];
        size_t size = site_make_book(&faulty->table, book);
        if (!verdict_holds(out, faulty->name, book, size, faulty->verdict) || !words_hold(out, faulty, book, size))
            return 0;
    }
    return 1;
}

void site_look_at_books(FILE *out)
{
    if (sound_books_hold(out))
        faulty_books_hold(out);
}

/* Begins to tell what failed in a play. */
static void begin_failure(FILE *out, const struct site_run *run)
{
    fprintf(out, "play \"%s\", ", run->play->name);
    site_write_last(out, run);
    fprintf(out, ": expected ");
}

/* Nothing in the plays of these items is refused. */
static int is_accepted(FILE *out, const struct site_run *run)
{
    if (run->verdict.number == 0)
        return 1;
    begin_failure(out, run);
    fprintf(out, "accepted; found ");
    write_verdict(out, run->verdict);
    return 0;
}

static int passes_hold(FILE *out, const struct site_run *run, size_t expected)
{
    if (expected == 0 || run->played.passes == expected)
        return 1;
    begin_failure(out, run);
    fprintf(out, "%zu passes; found %zu", expected, run->played.passes);
    return 0;
}

static int marks_hold(FILE *out, const struct site_run *run, const char *expected)
{
    size_t length;
    char *found = site_text_of(site_write_marks, run, &length);
    int same = found != NULL && strcmp(found, expected) == 0;
    if (!same) {
        begin_failure(out, run);
        fprintf(out, "marks %s; found %s", expected, found != NULL ? found : NO_MEMORY);
    }
    free(found);
    return same;
}

static int routine_holds(FILE *out, const struct site_run *run, unsigned routine, struct standing expected)
{
    struct standing found = standing_of(run->game, routine);
    if (found.stage == expected.stage && found.flags == expected.flags && found.place == expected.place)
        return 1;
    begin_failure(out, run);
    fprintf(out, "routine %u ", routine);
    write_standing(out, expected);
    fprintf(out, "; found it ");
    write_standing(out, found);
    return 0;
}

/* The last round must come to what is expected of it: marks, passes and where each routine stands behind it. */
static int round_holds(FILE *out, const struct site_run *run)
{
    const struct site_expected *expected = &run->play->expected[run->round - 1];
    int holds = marks_hold(out, run, expected->marks) && passes_hold(out, run, expected->passes);
    for (unsigned routine = 0; holds && routine < SITE_WATCHED; routine++)
        holds = routine_holds(out, run, routine, expected->routines[routine]);
    return holds;
}

static int play_holds(FILE *out, const struct site_play *play)
{
    struct site_run run;
    site_begin(&run, play);
    int holds = is_accepted(out, &run);
    while (holds && site_go_on(&run))
        holds = is_accepted(out, &run) && (run.last != SITE_ROUND || round_holds(out, &run));
    return holds;
}

void site_look_at_plays(FILE *out, unsigned item)
{
    int holds = 1;
    for (size_t i = 0; holds && i < site_play_count; i++)
        holds = site_plays[i].item != item || play_holds(out, &site_plays[i]);
}
