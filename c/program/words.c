#include <inttypes.h>
#include <string.h>

#include "book.h"
#include "words.h"

/* The meanings of the refusals by their numbers. */
static const char *const MEANINGS[] = {
    "accepted",
    "the book has fewer than 12 bytes",
    "a count of the book is outside its range",
    "an offset or the length of the book is wrong",
    "the directory breaks its rule",
    "a step has an unknown op, a field out of range or a stray field",
    "wrong nesting",
    "a while's body does not pause",
    "an order of unknown kind, or a number not below its count",
    "the game does not fit the book",
    "the buffer for marks is shorter than two numbers for each mark step of the book",
    "more than 1,024 numbers given in a round",
    "the buffer for names is shorter than the number of routines",
    "the bytes are not a stored game",
    "the buffer for the game is shorter than the stored game that would be written",
};

const char *refusal_meaning(uint32_t number)
{
    return number < sizeof MEANINGS / sizeof MEANINGS[0] ? MEANINGS[number] : "unknown refusal";
}

/* The relation of a counter to a number, by the relations' numbers. */
static const char *const RELATIONS[] = {"equals", "is less than", "is greater than"};

/* A relation in words, or its number where there is no such relation. */
static void print_relation(FILE *out, int32_t relation)
{
    if ((size_t)relation < sizeof RELATIONS / sizeof RELATIONS[0])
        fputs(RELATIONS[relation], out);
    else
        fprintf(out, "has relation %" PRId32 " to", relation);
}

/* A field in words, by what it holds. */
static void print_field(FILE *out, enum content content, int32_t value)
{
    switch (content) {
    case COUNTER: fprintf(out, "counter %" PRId32, value); break;
    case SIGNAL: fprintf(out, "signal %" PRId32, value); break;
    case ROUTINE: fprintf(out, "routine %" PRId32, value); break;
    case POSITION: fprintf(out, "number %" PRId32, value); break;
    case ROUNDS: fprintf(out, "%" PRId32 " %s", value, value == 1 ? "round" : "rounds"); break;
    case RELATION: print_relation(out, value); break;
    default: fprintf(out, "%" PRId32, value);
    }
}

/* The words of an op with the fields of a step in their places. */
static void print_words(FILE *out, const struct op *op, const struct step *step)
{
    for (const char *word = op->words; *word != '\0'; word++) {
        if (*word != '$') {
            putc(*word, out);
            continue;
        }
        word++;
        size_t field = (size_t)(strchr(FIELD_LETTERS, *word) - FIELD_LETTERS);
        print_field(out, op->contents[field], step->fields[field]);
    }
}

void print_step(FILE *out, const uint8_t *bytes)
{
    struct step step = step_of(bytes);
    const struct op *op = op_of(step.op);
    if (op == NULL)
        fprintf(out, "op %u", step.op);
    else
        print_words(out, op, &step);
    for (size_t field = 0; field < FIELDS; field++)
        if (step.fields[field] != 0 && (op == NULL || op->contents[field] == UNUSED))
            fprintf(out, ", %s%c %" PRId32, op == NULL ? "" : "stray ", FIELD_LETTERS[field], step.fields[field]);
}
