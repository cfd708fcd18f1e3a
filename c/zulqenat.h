/* Zulqenat for C: checks books of routines, and keeps and plays games.
 *
 * A book is bytes. A game is bytes too, in its stored form, at the front of a buffer that the program lends: ZULQENAT_STORED_BYTES are
 * enough for every game. What is stored is what is played with and what is kept until next weekend. A whole program:
 *
 *     #include <stdio.h>
 *     #include "zulqenat.h"
 *
 *     int main(void)
 *     {
 *         static uint8_t book[ZULQENAT_BOOK_BYTES + 1], game[ZULQENAT_STORED_BYTES];
 *         static int32_t marks[ZULQENAT_MARK_NUMBERS];
 *         size_t size = fread(book, 1, sizeof book, stdin);
 *         struct zulqenat_stored set_up = zulqenat_set_up(book, size, game, sizeof game);
 *         if (set_up.verdict.number != 0) {
 *             printf("refused %u %u\n", (unsigned)set_up.verdict.number, (unsigned)set_up.verdict.place);
 *             return 1;
 *         }
 *         size_t length = set_up.length;
 *         for (int round = 1; round <= 3; round++) {
 *             struct zulqenat_round played =
 *                 zulqenat_play(book, size, game, sizeof game, length, marks, ZULQENAT_MARK_NUMBERS);
 *             if (played.verdict.number != 0)
 *                 return 1;
 *             length = played.length;
 *             printf("round %d: %zu passes, %zu marks\n", round, played.passes, played.marks);
 *         }
 *         return 0;
 *     }
 *
 * Every call returns, whatever the bytes are and whatever `length`, `routine`, `kind` and `number` are. `size`, `room` and `numbers` are how
 * much is lent at their pointers. No pointer may be null, not even where nothing is lent there, and what a call writes to lies apart from
 * what else it is lent. A call keeps nothing and changes nothing but the buffers that it is said to write to. Link with libzulqenat.a or
 * libzulqenat.so. */
#ifndef ZULQENAT_H
#define ZULQENAT_H

#include <stddef.h>
#include <stdint.h>

#ifdef __cplusplus
extern "C" {
#endif

/* The most routines, steps, signals and counters of a book. */
#define ZULQENAT_ROUTINES 64
#define ZULQENAT_STEPS 1024
#define ZULQENAT_SIGNALS 64
#define ZULQENAT_COUNTERS 64

/* The bytes of the longest book: its header, directory and steps. */
#define ZULQENAT_BOOK_BYTES (12 + 4 * ZULQENAT_ROUTINES + 8 * ZULQENAT_STEPS)

/* The bytes of the longest stored game, 858: its header, records, counters, the counts of the two lists, a byte for each routine, which is in
 * one of them at most, and the signals. A buffer for games that is so long is never refused with 14. */
#define ZULQENAT_STORED_BYTES (14 + 8 * ZULQENAT_ROUTINES + 4 * ZULQENAT_COUNTERS + 2 + 2 + ZULQENAT_ROUTINES + 8)

/* The numbers of the marks of the longest round: a buffer for marks that is so long is never refused with 10. */
#define ZULQENAT_MARK_NUMBERS (2 * ZULQENAT_STEPS)

/* The first refusal that applies, and its place. Both are 0 where nothing is refused. After a refusal every buffer is as it was lent, and
 * the other numbers of the answer are 0.
 *
 * number  what it means                                        place
 * 0       accepted                                             0
 * 1       the book has fewer than 12 bytes                     0
 * 2       a count of the book is outside its range             0
 * 3       an offset or the length of the book is wrong         0
 * 4       the directory breaks its rule                        the first routine whose first step is not the
 *                                                              sum of the counts before it; the number of
 *                                                              routines if only the total is wrong
 * 5       unknown op, field out of range or stray field        the first such step
 * 6       wrong nesting                                        the step reached; for an opening that is
 *                                                              never closed, the innermost one
 * 7       a while's body does not pause                        the lowest such while
 * 8       an order of unknown kind, or a number not below      0
 *         its count
 * 9       the game does not fit the book                       0
 * 10      the buffer for marks is shorter than two numbers     0
 *         for each mark step of the book
 * 11      more than 1,024 numbers given in a round: never      0
 *         told, since no round gives more than its book has
 *         steps
 * 12      the buffer for names is shorter than the number of   0
 *         routines
 * 13      the bytes are not a stored game                      0
 * 14      the buffer for the game is shorter than the stored   0
 *         game that would be written
 *
 * Steps are numbered from the book's first step, 0. */
struct zulqenat_verdict {
    uint32_t number;
    uint32_t place;
};

/* Checks a book of `size` bytes: 1 to 7. */
struct zulqenat_verdict zulqenat_check_book(const uint8_t *book, size_t size);

/* How many routines are named. */
struct zulqenat_names {
    struct zulqenat_verdict verdict;
    size_t count;
};

/* Names the routines to which no chain of start steps leads from routine 0, wherever the steps stand: their numbers go to the front of
 * `names`, a byte each, in rising order. `names` has `room` bytes, of which the others stay as they are; it needs as many as the book has
 * routines. 1 to 7, then 12. */
struct zulqenat_names zulqenat_unstarted(const uint8_t *book, size_t size, uint8_t *names, size_t room);

/* A part of the book: `length` bytes from byte `offset` on. */
struct zulqenat_part {
    size_t offset;
    size_t length;
};

/* Where the steps of a routine stand in the book, 8 bytes each. For a refused book, or a number that is no routine of the book, it is the
 * empty part at the book's start. */
struct zulqenat_part zulqenat_show(const uint8_t *book, size_t size, uint32_t routine);

/* How many bytes at the front of the buffer the stored game has. After a refusal it is 0, and the game keeps the length that it had. */
struct zulqenat_stored {
    struct zulqenat_verdict verdict;
    size_t length;
};

/* Whether the first `length` bytes of a buffer of `room` bytes are a stored game that fits the book: 1 to 7, 13, 9. Where `length` is above
 * `room`, it is 13. */
struct zulqenat_verdict zulqenat_fits(const uint8_t *book, size_t size, const uint8_t *game, size_t room, size_t length);

/* How long the stored game is that a buffer of `room` bytes begins with, where the length was not kept: 1 to 7, then 13 and 9 of the bytes
 * up to the end that the stored game itself gives. */
struct zulqenat_stored zulqenat_stored_length(const uint8_t *book, size_t size, const uint8_t *game, size_t room);

/* Sets up a game: writes the one that a play of the book begins with to the front of a buffer of `room` bytes, whatever is there.
 * 1 to 7, then 14. */
struct zulqenat_stored zulqenat_set_up(const uint8_t *book, size_t size, uint8_t *game, size_t room);

/* The kinds of an order: broadcast a signal; start, stop, suspend or resume a routine. */
enum { ZULQENAT_BROADCAST = 0, ZULQENAT_START = 1, ZULQENAT_STOP = 2, ZULQENAT_SUSPEND = 3, ZULQENAT_RESUME = 4 };

/* Gives the game in the first `length` bytes of a buffer of `room` bytes an order for the next round, and writes the game back. An order to
 * start may lengthen it by a byte; the answer has the new length. 1 to 7, 13, 9, 8, 14. */
struct zulqenat_stored zulqenat_order(const uint8_t *book, size_t size, uint8_t *game, size_t room, size_t length, uint32_t kind,
                                      uint32_t number);

/* The new length of the stored game, which after a refusal keeps the length that it had, the passes of the round, how many marks it made,
 * and how much its additions cut off where counters ran into an end, which is at most 1,024,000,000. */
struct zulqenat_round {
    struct zulqenat_verdict verdict;
    size_t length;
    size_t passes;
    size_t marks;
    size_t lost;
};

/* Plays a round of the game in the first `length` bytes of a buffer of `room` bytes, and writes the game back. Each mark is two numbers at
 * the front of `marks`, the routine and its number, in the order made; `marks` has room for `numbers` numbers, of which the others stay as
 * they are. 1 to 7, 13, 9, 10, 14. A buffer of fewer than ZULQENAT_STORED_BYTES will do where the game fits into it, and then the call
 * takes about twice as long. */
struct zulqenat_round zulqenat_play(const uint8_t *book, size_t size, uint8_t *game, size_t room, size_t length, int32_t *marks,
                                    size_t numbers);

/* The stored form of a game, whose numbers are little-endian: a header of seven numbers of 16 bits, which are the form's number, 1, the
 * book's counts of routines R, signals E and counters C, and where the records (14), the counters and the lists begin; for each routine a
 * record of 8 bytes, which are the stage, the flags, the place in 16 bits and the count left in 32; the counters in 32 bits each, two's
 * complement; the playing order and the routines to start, each a count in 16 bits and a byte for each routine; and 8 bytes with a bit for
 * each signal to broadcast, signal i being bit i mod 8 of byte i / 8. */
enum { ZULQENAT_NOT_STARTED = 0, ZULQENAT_CONTINUING = 1, ZULQENAT_RESTED = 2, ZULQENAT_ENDED = 3, ZULQENAT_STOPPED = 4 };
enum {
    ZULQENAT_SUSPENDED = 1,
    ZULQENAT_BEGUN = 2,
    ZULQENAT_TO_STOP = 4,
    ZULQENAT_TO_SUSPEND = 8,
    ZULQENAT_TO_RESUME = 16
};

#ifdef __cplusplus
}
#endif

#endif
