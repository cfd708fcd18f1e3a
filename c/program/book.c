#include "book.h"

const char FIELD_LETTERS[FIELDS + 1] = "abn";

/* The ops by their numbers, with the names that the rules of books give them. */
static const struct op OPS[OP_COUNT] = {
    [OP_MARK] = {"mark", "mark $n", {UNUSED, UNUSED, NUMBER}},
    [OP_SET] = {"set", "set $a to $n", {COUNTER, UNUSED, NUMBER}},
    [OP_ADD] = {"add", "add $n to $a", {COUNTER, UNUSED, NUMBER}},
    [OP_TAKE] = {"take", "take: add $b to $a", {COUNTER, COUNTER, UNUSED}},
    [OP_SIGNAL] = {"signal", "give $a", {SIGNAL, UNUSED, UNUSED}},
    [OP_SIGNAL_WITH_NUMBER] = {"signal with number", "give $a with the number in $b", {SIGNAL, COUNTER, UNUSED}},
    [OP_REST] = {"rest", "rest", {UNUSED, UNUSED, UNUSED}},
    [OP_REST_N] = {"rest n", "rest for $n", {UNUSED, UNUSED, ROUNDS}},
    [OP_WAIT] = {"wait", "wait for $a", {SIGNAL, UNUSED, UNUSED}},
    [OP_WAIT_N] = {"wait n", "wait for $a, at most $n", {SIGNAL, UNUSED, ROUNDS}},
    [OP_JOIN] = {"join", "join $a", {ROUTINE, UNUSED, UNUSED}},
    [OP_JOIN_N] = {"join n", "join $a, at most $n", {ROUTINE, UNUSED, ROUNDS}},
    [OP_READ] = {"read", "read $n of $a into $b", {SIGNAL, COUNTER, POSITION}},
    [OP_START] = {"start", "start $a", {ROUTINE, UNUSED, UNUSED}},
    [OP_STOP] = {"stop", "stop $a", {ROUTINE, UNUSED, UNUSED}},
    [OP_SUSPEND] = {"suspend", "suspend $a", {ROUTINE, UNUSED, UNUSED}},
    [OP_RESUME] = {"resume", "resume $a", {ROUTINE, UNUSED, UNUSED}},
    [OP_IF] = {"if", "if $a $b $n", {COUNTER, RELATION, NUMBER}},
    [OP_ELSE] = {"else", "else", {UNUSED, UNUSED, UNUSED}},
    [OP_WHILE] = {"while", "while $a $b $n", {COUNTER, RELATION, NUMBER}},
    [OP_END] = {"end", "end", {UNUSED, UNUSED, UNUSED}},
};

unsigned number_at(const uint8_t *bytes, size_t at)
{
    return bytes[at] + 256u * bytes[at + 1];
}

struct step step_of(const uint8_t *bytes)
{
    uint32_t n = number_at(bytes, 4) + 65536u * number_at(bytes, 6);
    /* The two's complement is undone by arithmetic, so that no conversion is left to the compiler. */
    int32_t number = n > INT32_MAX ? -(int32_t)(UINT32_MAX - n) - 1 : (int32_t)n;
    return (struct step){bytes[0], {bytes[1], (int32_t)number_at(bytes, 2), number}};
}

const struct op *op_of(unsigned number)
{
    return number < OP_COUNT ? &OPS[number] : NULL;
}
