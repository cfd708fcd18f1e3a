/* The stored form of a game, taken apart into plain numbers and put together again by the tests of the C calls, apart from the library. */
#ifndef C_FORM_H
#define C_FORM_H

#include <stddef.h>
#include <stdint.h>

/* What a game keeps: three counts, the lengths of the two lists, and then fields of an entry for each routine, counter, place in a list or
 * signal. */
enum field {
    ROUTINES,
    SIGNALS,
    COUNTERS,
    LISTED_LENGTH,
    TO_START_LENGTH,
    STAGE,
    SUSPENDED,
    PLACE,
    BEGUN,
    LEFT,
    TO_STOP,
    TO_SUSPEND,
    TO_RESUME,
    COUNTER,
    LISTED,
    TO_START,
    BROADCAST,
    FIELDS
};

/* The entries of a field; a field that is one number has it in entry 0. */
enum { ENTRIES = 64 };

/* A game whose fields may have any number, also one that the stored form cannot hold. */
struct plain_game {
    int64_t of[FIELDS][ENTRIES];
};

/* The number of an entry; behind the last one it is 0. */
int64_t entry(const struct plain_game *game, enum field field, size_t at);

/* The field of this name, as the scripts have it; FIELDS where there is none. */
enum field field_named(const char *name);

/* Whether the stored form has a place for every number that is not 0, and whether each fits into its place. */
int can_be_stored(const struct plain_game *game);

/* How many bytes a game takes that can be stored. */
size_t stored_size(const struct plain_game *game);

/* Stores such a game in so many bytes. */
void store(const struct plain_game *game, uint8_t *bytes);

/* Where the stored game at the front of `length` bytes ends by its own counts; 0 where its header or the length of a list is not right, or
 * where it would end behind them. */
size_t end_of(const uint8_t *bytes, size_t length);

/* Whether bytes have the stored form; refusal 13 is for those that have not. */
int is_formed(const uint8_t *bytes, size_t length);

/* The game that bytes of the stored form stand for. */
void read_formed(const uint8_t *bytes, struct plain_game *game);

#endif
