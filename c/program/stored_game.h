/* What a stored game holds, and in words. */
#ifndef STORED_GAME_H
#define STORED_GAME_H

#include <stddef.h>
#include <stdint.h>
#include <stdio.h>

/* Where a stored game has the offsets of its counters and lists, and its records. */
enum { AT_COUNTERS_OFFSET = 10, AT_LISTS_OFFSET = 12, AT_RECORDS = 14 };

/* The bytes of a routine's record, of a counter and of a list's count. */
enum { RECORD_BYTES = 8, COUNTER_BYTES = 4, COUNT_BYTES = 2 };

/* Where a record has its parts. */
enum { AT_STAGE = 0, AT_FLAGS = 1, AT_PLACE = 2 };

/* Where a routine stands. */
struct standing {
    unsigned stage;
    unsigned flags;
    unsigned place;
};

/* Where a routine of a stored game stands. */
struct standing standing_of(const uint8_t *game, unsigned routine);

/* Writes where a routine stands, as `rested at place 3, to resume`. */
void write_standing(FILE *out, struct standing standing);

/* Names the part of a stored game in which a byte of it lies. */
void write_part(FILE *out, const uint8_t *game, size_t length, size_t byte);

#endif
