/* Checks a book of routines, and names the routines that nobody starts. Link with target/staticlib/libbook_c.a. */
#ifndef ZULQENAT_H
#define ZULQENAT_H

#include <stddef.h>
#include <stdint.h>

#ifdef __cplusplus
extern "C" {
#endif

/* The first refusal that applies, and its place. Both are 0 for a book that is accepted.
 *
 * number  what it means                                        place
 * 0       accepted                                             0
 * 1       fewer than 12 bytes                                  0
 * 2       a count is outside its range                         0
 * 3       an offset or the length is wrong                     0
 * 4       the directory breaks its rule                        the first routine whose first step is not the
 *                                                              sum of the counts before it; the number of
 *                                                              routines if only the total is wrong
 * 5       unknown op, field out of range or stray field        the first such step
 * 6       wrong nesting                                        the step reached; for an opening that is
 *                                                              never closed, the innermost one
 * 7       a while's body does not pause                        the lowest such while
 * 12      the buffer for the names is shorter than the         0
 *         number of routines (of zulqenat_unstarted alone)
 *
 * Steps are numbered from the book's first step, 0.
 */
struct zulqenat_verdict {
    uint32_t number;
    uint32_t place;
};

/* Reads the length bytes at book, which may be any bytes and are not changed. book is never null, not even
 * where length is 0. The call keeps nothing, and returns for every input. */
struct zulqenat_verdict zulqenat_check_book(const uint8_t *book, size_t length);

/* The verdict, and how many routines are named: 0 after a refusal. */
struct zulqenat_names {
    struct zulqenat_verdict verdict;
    size_t count;
};

/* Names the routines to which no chain of start steps leads from routine 0, wherever the steps stand: their numbers go to the front of
 * names, a byte each, in rising order. names has room bytes, of which the others, and all after a refusal, stay as they are; it needs as
 * many as the book has routines, and 64 are always enough. book is as above and is not changed; names is never null, not even where room is
 * 0, and lies outside book. The call keeps nothing, and returns for every input. */
struct zulqenat_names zulqenat_unstarted(const uint8_t *book, size_t length, uint8_t *names, size_t room);

#ifdef __cplusplus
}
#endif

#endif
