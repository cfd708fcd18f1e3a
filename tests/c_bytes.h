/* Bytes for the tests of the C calls: memory of just the length that a call is told, hexadecimal digits, little-endian numbers. */
#ifndef C_BYTES_H
#define C_BYTES_H

#include <stddef.h>
#include <stdint.h>

/* What a buffer is filled with where the test has nothing to say about its content: no routine, and no number of a mark. */
enum { UNTOUCHED = 0xa5 };

/* Memory of just `size` bytes, all UNTOUCHED, so that valgrind sees a read or a write before or behind it. It is not null, and to be freed
 * by the caller. Where there is no memory, the program ends. */
void *memory_of(size_t size);

/* A copy of bytes in memory of just their length. */
uint8_t *copy_of(const uint8_t *bytes, size_t size);

/* Whether every byte is UNTOUCHED. */
int is_untouched(const void *bytes, size_t size);

/* The bytes that hexadecimal digits at the front of a text stand for, in memory of just their length. */
uint8_t *bytes_of(const char *text, size_t *size);

/* The little-endian number in the first `count` bytes. */
uint64_t number_at(const uint8_t *bytes, size_t count);

/* Writes a little-endian number of `count` bytes, and gives the place behind it. */
uint8_t *put_number(uint8_t *bytes, size_t count, uint64_t number);

/* Gives the condition back, and says on standard output what is wrong where it does not hold. */
int holds(int condition, const char *wrong);

#endif
