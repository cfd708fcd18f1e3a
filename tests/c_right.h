/* The right answers of the C calls, worked out from the bytes of the book and of the game. What is known of the library is only which books
 * it accepts. */
#ifndef C_RIGHT_H
#define C_RIGHT_H

#include "c_acts.h"

/* The bytes of a book's header, of an entry of its directory and of a step. */
enum { BOOK_HEADER = 12, DIRECTORY_ENTRY = 4, STEP = 8 };

/* A book with its verdict. The counts of a refused book are 0. */
struct checked {
    struct book book;
    struct zulqenat_verdict verdict;
    size_t routines;
    size_t signals;
    size_t counters;
    size_t mark_steps;
};

/* Checks a book, and counts what an accepted one has. */
struct checked checked_book(struct book book);

/* Where the steps of a routine stand. */
struct zulqenat_part right_part(const struct checked *checked, uint32_t routine);

/* The number that has to be told of the first `length` bytes of a buffer of `room` bytes as a game. */
uint32_t fit_number(const struct checked *checked, const uint8_t *bytes, size_t room, size_t length);

/* The number that a call which writes a game has to tell where its buffer is long enough for what it writes. */
uint32_t act_number(const struct checked *checked, const struct act *act, const uint8_t *before, size_t room, size_t length);

#endif
