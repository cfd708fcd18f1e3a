/* The numbers of a book, and the table of ops. */
#ifndef BOOK_H
#define BOOK_H

#include <stddef.h>
#include <stdint.h>

/* The bytes of a book's header, of an entry of its directory and of a step. */
enum { HEADER_BYTES = 12, ENTRY_BYTES = 4, STEP_BYTES = 8 };

/* Where the numbers of the header stand, and in an entry of the directory the number of its steps. */
enum { AT_ROUTINES = 0, AT_STEPS = 2, AT_SIGNALS = 4, AT_COUNTERS = 6, AT_DIRECTORY_OFFSET = 8, AT_STEPS_OFFSET = 10, AT_ENTRY_COUNT = 2 };

/* The ops by their numbers, from 0 on. */
enum {
    OP_MARK, OP_SET, OP_ADD, OP_TAKE, OP_SIGNAL, OP_SIGNAL_WITH_NUMBER, OP_REST, OP_REST_N, OP_WAIT, OP_WAIT_N, OP_JOIN, OP_JOIN_N,
    OP_READ, OP_START, OP_STOP, OP_SUSPEND, OP_RESUME, OP_IF, OP_ELSE, OP_WHILE, OP_END, OP_COUNT
};

/* The ends of every number of a book, which are those of a counter too. */
enum { LOWEST_NUMBER = -1000000, HIGHEST_NUMBER = 1000000 };

/* The fields of a step, and the letters that stand for them. */
enum { FIELD_A, FIELD_B, FIELD_N, FIELDS };
extern const char FIELD_LETTERS[FIELDS + 1];

/* What a field of a step holds: nothing, the number of a counter, signal or routine, a relation, any number, how many rounds, or which of a
 * signal's numbers is read. */
enum content { UNUSED, COUNTER, SIGNAL, ROUTINE, RELATION, NUMBER, ROUNDS, POSITION };

/* An op: its name, the words for a step of it, in which $a, $b and $n stand for the fields, and what each field holds. */
struct op {
    const char *name;
    const char *words;
    enum content contents[FIELDS];
};

/* A step's eight bytes, taken apart. */
struct step {
    unsigned op;
    int32_t fields[FIELDS];
};

/* The 16-bit number that stands there in a book or in a stored game. */
unsigned number_at(const uint8_t *bytes, size_t at);

/* Takes the eight bytes of a step apart. */
struct step step_of(const uint8_t *bytes);

/* The op of this number; null where it is unknown. */
const struct op *op_of(unsigned number);

#endif
