/* The C calls, made in memory of just the lengths that they are told. What holds of every call, whatever it is asked, is checked here: a
 * refusal changes nothing and has no other number, and an accepted call writes no more than it says. */
#ifndef C_ACTS_H
#define C_ACTS_H

#include "zulqenat.h"

enum call { CHECK_BOOK, UNSTARTED, SHOW, FITS, STORED_LENGTH, SET_UP, ORDER, PLAY, CALLS };

/* The refusals that the tests speak of. */
enum { ACCEPTED = 0, WRONG_ORDER = 8, UNFIT = 9, FEW_NUMBERS = 10, FEW_NAMES = 12, NOT_STORED = 13, SHORT_ROOM = 14, NUMBERS_TOLD = 15 };

/* How often each call told each number. A show, which tells none, is counted as accepted. */
extern unsigned long told[CALLS][NUMBERS_TOLD];

/* A book that lies in memory of just its length. */
struct book {
    uint8_t *bytes;
    size_t size;
};

/* A call that writes a game. An order has a kind and a number, and a round the length of its buffer for marks. */
struct act {
    enum call call;
    uint32_t kind;
    uint32_t number;
    size_t numbers;
};

/* What such a call gave: its answer, where it is accepted the stored game, and its marks. A set-up and an order are told as a round without
 * passes. */
struct result {
    struct zulqenat_round answer;
    uint8_t game[ZULQENAT_STORED_BYTES];
    int32_t marks[ZULQENAT_MARK_NUMBERS];
};

/* Makes the call in a buffer of `room` bytes, which are those of `before`. Whether all went as it must. */
int act_in(struct book book, const struct act *act, const uint8_t *before, size_t room, size_t length, struct result *result);

/* Whether answer, game and marks are the same. */
int same_result(const struct result *one, const struct result *other);

/* Names the routines that nobody starts in a buffer of `room` bytes; the names are copied to `names`. Whether all went as it must. */
int names_in(struct book book, size_t room, struct zulqenat_names *answer, uint8_t names[ZULQENAT_ROUTINES]);

/* Judges or measures a game in a buffer of `room` bytes, which are those of `game`. Whether all went as it must. */
int fit_in(struct book book, const uint8_t *game, size_t room, size_t length, struct zulqenat_verdict *verdict);
int length_in(struct book book, const uint8_t *game, size_t room, struct zulqenat_stored *answer);

/* Checks a book, and shows a routine. */
struct zulqenat_verdict verdict_of(struct book book);
struct zulqenat_part part_of(struct book book, uint32_t routine);

#endif
