/* The built-in books and plays of the command site, and how one is played. */
#ifndef SITE_PLAYS_H
#define SITE_PLAYS_H

#include <stddef.h>
#include <stdint.h>
#include <stdio.h>

#include "stored_game.h"
#include "zulqenat.h"

/* A row of a table of steps: a step by its op and fields, or one of the two below, which are no ops. */
struct site_row {
    uint8_t op;
    uint8_t a;
    uint16_t b;
    int32_t n;
};

enum { SITE_ROUTINE_BEGINS = 254, SITE_TABLE_ENDS = 255 };

/* A book as a table: how many signals and counters it has, and the rows of its steps, with a row in front of those of each routine. */
struct site_table {
    uint16_t signals;
    uint16_t counters;
    const struct site_row *rows;
};

/* Writes the bytes of a table's book, which are at most ZULQENAT_BOOK_BYTES, and answers how many they are. */
size_t site_make_book(const struct site_table *table, uint8_t *book);

/* A book that has to be refused: with which number and place, and the routine in which the place lies, with the place counted from the
 * routine's own first step. */
struct site_faulty_book {
    const char *name;
    struct site_table table;
    struct zulqenat_verdict verdict;
    unsigned routine;
    unsigned own_place;
};

/* An order that is given in front of a round. */
struct site_order {
    unsigned round;
    uint32_t kind;
    uint32_t number;
};

/* How many routines a play has whose rounds are expected. */
enum { SITE_WATCHED = 2 };

/* What a round of a play must come to. Passes of 0 are not looked at. The marks are written as site_write_marks writes them. */
struct site_expected {
    size_t passes;
    const char *marks;
    struct standing routines[SITE_WATCHED];
};

/* A play: the number of the item that it serves, or 0 where it is only recorded; its book; its rounds, and what each must come to, or
 * null; and its orders in the order given, the last of which is in front of round 0 and is not given. */
struct site_play {
    const char *name;
    unsigned item;
    struct site_table table;
    unsigned rounds;
    const struct site_expected *expected;
    const struct site_order *orders;
};

extern const struct site_play site_plays[];
extern const size_t site_play_count;
extern const struct site_faulty_book site_faulty_books[];
extern const size_t site_faulty_book_count;

/* A play that is being played: its book, its game, the order that comes next, the rounds so far, and what came last with its answer. */
struct site_run {
    const struct site_play *play;
    const struct site_order *next;
    unsigned round;
    enum { SITE_SET_UP, SITE_ORDER, SITE_ROUND } last;
    struct zulqenat_verdict verdict;
    struct zulqenat_round played;
    size_t size;
    size_t length;
    uint8_t book[ZULQENAT_BOOK_BYTES];
    uint8_t game[ZULQENAT_STORED_BYTES];
    int32_t marks[ZULQENAT_MARK_NUMBERS];
};

/* Begins a play: makes its book and sets its game up. */
void site_begin(struct site_run *run, const struct site_play *play);

/* Gives the next order or plays the next round; 0 where the play has no more. */
int site_go_on(struct site_run *run);

/* Names what came last: the set-up, the order or the round. */
void site_write_last(FILE *out, const struct site_run *run);

/* Writes the marks of the last round of a run, as `0 7, 1 -3`, routine and number of each, or `none`. */
void site_write_marks(FILE *out, const void *run);

#endif
