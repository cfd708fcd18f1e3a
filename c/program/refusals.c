/* Refused books: what is wrong with them, in words. */
#include <inttypes.h>

#include "book.h"
#include "words.h"

/* How deep blocks may nest. */
enum { DEEPEST = 16 };

/* The highest relation, and the highest position of a signal's numbers that is read. */
enum { HIGHEST_RELATION = 2, HIGHEST_POSITION = 64 };

/* A refused book, and the place of its refusal. */
struct refused {
    const uint8_t *book;
    size_t size;
    uint32_t place;
};

/* A routine of the book, where it begins and how many steps it has, and a place in it. */
struct spot {
    size_t routine;
    size_t first;
    size_t count;
    size_t place;
};

/* How many bytes there are, which are too few for a header. */
static void explain_size(FILE *out, const struct refused *refused)
{
    fprintf(out, "the book has %zu bytes, and its header alone takes %d\n", refused->size, HEADER_BYTES);
}

/* A line for each count that is outside its range. */
static void explain_counts(FILE *out, const struct refused *refused)
{
    static const struct {
        const char *name;
        size_t at;
        unsigned least;
        unsigned most;
    } counts[] = {
        {"routines", AT_ROUTINES, 1, ZULQENAT_ROUTINES},
        {"steps", AT_STEPS, 0, ZULQENAT_STEPS},
        {"signals", AT_SIGNALS, 0, ZULQENAT_SIGNALS},
        {"counters", AT_COUNTERS, 0, ZULQENAT_COUNTERS},
    };
    for (size_t i = 0; i < sizeof counts / sizeof counts[0]; i++) {
        unsigned count = number_at(refused->book, counts[i].at);
        if (count < counts[i].least || count > counts[i].most)
            fprintf(out, "the count of %s is %u, and may be %u to %u\n", counts[i].name, count, counts[i].least, counts[i].most);
    }
}

/* A line for each offset that is wrong, and one for a wrong length. */
static void explain_offsets(FILE *out, const struct refused *refused)
{
    const uint8_t *book = refused->book;
    size_t steps_offset = HEADER_BYTES + ENTRY_BYTES * (size_t)number_at(book, AT_ROUTINES);
    const struct {
        const char *name;
        size_t found;
        size_t right;
    } numbers[] = {
        {"the offset of the directory", number_at(book, AT_DIRECTORY_OFFSET), HEADER_BYTES},
        {"the offset of the steps", number_at(book, AT_STEPS_OFFSET), steps_offset},
        {"the length in bytes", refused->size, steps_offset + STEP_BYTES * (size_t)number_at(book, AT_STEPS)},
    };
    for (size_t i = 0; i < sizeof numbers / sizeof numbers[0]; i++)
        if (numbers[i].found != numbers[i].right)
            fprintf(out, "%s is %zu, and must be %zu\n", numbers[i].name, numbers[i].found, numbers[i].right);
}

/* The first step and the number of steps that the directory gives a routine. */
static struct spot entry_of(const uint8_t *book, size_t routine)
{
    size_t at = HEADER_BYTES + ENTRY_BYTES * routine;
    return (struct spot){routine, number_at(book, at), number_at(book, at + AT_ENTRY_COUNT), 0};
}

/* Where the routine at the place begins and where it should; behind the last routine, how many steps they have and should have. */
static void explain_directory(FILE *out, const struct refused *refused)
{
    size_t sum = 0;
    for (size_t routine = 0; routine < refused->place; routine++)
        sum += entry_of(refused->book, routine).count;
    if (refused->place == number_at(refused->book, AT_ROUTINES)) {
        fprintf(out, "the routines have %zu steps in all, and the book has %u\n", sum, number_at(refused->book, AT_STEPS));
        return;
    }
    struct spot entry = entry_of(refused->book, refused->place);
    fprintf(out, "routine %zu begins at step %zu, and should begin at step %zu\n", entry.routine, entry.first, sum);
}

/* The routine and the place in it of a step that is numbered from the book's first step. */
static struct spot spot_of(const struct refused *refused)
{
    struct spot spot = entry_of(refused->book, 0);
    while (refused->place >= spot.first + spot.count)
        spot = entry_of(refused->book, spot.routine + 1);
    spot.place = refused->place - spot.first;
    return spot;
}

/* The eight bytes of the step at a place of the spot's routine. */
static const uint8_t *bytes_at(const uint8_t *book, const struct spot *spot, size_t place)
{
    return book + number_at(book, AT_STEPS_OFFSET) + STEP_BYTES * (spot->first + place);
}

/* The line of the step at the refusal's place; the answer is where that is. */
static struct spot print_spot(FILE *out, const struct refused *refused)
{
    struct spot spot = spot_of(refused);
    fprintf(out, "routine %zu, place %zu: ", spot.routine, spot.place);
    print_step(out, bytes_at(refused->book, &spot, spot.place));
    putc('\n', out);
    return spot;
}

/* For all that a field may hold: what it is called, its lowest number, and its highest, or where the header has the count that it lies
 * below. */
enum { NO_COUNT = HEADER_BYTES };
static const struct range {
    const char *name;
    int32_t lowest;
    int32_t highest;
    size_t count_at;
} RANGES[] = {
    [UNUSED] = {"stray field", 0, 0, NO_COUNT},
    [COUNTER] = {"counter", 0, 0, AT_COUNTERS},
    [SIGNAL] = {"signal", 0, 0, AT_SIGNALS},
    [ROUTINE] = {"routine", 0, 0, AT_ROUTINES},
    [RELATION] = {"relation", 0, HIGHEST_RELATION, NO_COUNT},
    [NUMBER] = {"number", LOWEST_NUMBER, HIGHEST_NUMBER, NO_COUNT},
    [ROUNDS] = {"number of rounds", LOWEST_NUMBER, HIGHEST_NUMBER, NO_COUNT},
    [POSITION] = {"number to be read", 1, HIGHEST_POSITION, NO_COUNT},
};

/* A line about a field, if it is out of its range or stray. */
static void explain_field(FILE *out, const uint8_t *book, const struct op *op, const struct step *step, size_t field)
{
    const struct range *range = &RANGES[op->contents[field]];
    int32_t value = step->fields[field];
    int32_t highest = range->count_at == NO_COUNT ? range->highest : (int32_t)number_at(book, range->count_at) - 1;
    if (range->lowest <= value && value <= highest)
        return;
    fprintf(out, "the %s (%c) is %" PRId32 ", and ", range->name, FIELD_LETTERS[field], value);
    if (op->contents[field] == UNUSED)
        fprintf(out, "must be 0: the op %s does not use it\n", op->name);
    else if (highest < range->lowest)
        fprintf(out, "the book has no %ss\n", range->name);
    else
        fprintf(out, "may be %" PRId32 " to %" PRId32 "\n", range->lowest, highest);
}

/* A line for each field that is out of its range or stray, or that the op is unknown. */
static void explain_step(FILE *out, const struct refused *refused)
{
    struct spot spot = print_spot(out, refused);
    struct step step = step_of(bytes_at(refused->book, &spot, spot.place));
    const struct op *op = op_of(step.op);
    if (op == NULL)
        fprintf(out, "the op %u is unknown; ops are 0 to %u\n", step.op, (unsigned)OP_COUNT - 1);
    for (size_t field = 0; op != NULL && field < FIELDS; field++)
        explain_field(out, refused->book, op, &step, field);
}

/* The ifs and whiles that are open, the innermost last: the op and place of each, and the place of its else, or that of the opening itself
 * where it has none so far. */
struct nesting {
    struct {
        unsigned op;
        size_t place;
        size_t else_place;
    } open[DEEPEST];
    size_t depth;
};

/* What may be wrong with the nesting at a step. */
enum fault { SOUND, NO_OPENING, SECOND_ELSE, ELSE_IN_WHILE, TOO_DEEP };

/* What is wrong with an else here. Where nothing is, it joins the innermost opening. */
static enum fault take_else(struct nesting *nesting, size_t place)
{
    if (nesting->depth == 0)
        return NO_OPENING;
    size_t last = nesting->depth - 1;
    if (nesting->open[last].op == OP_WHILE)
        return ELSE_IN_WHILE;
    if (nesting->open[last].else_place != nesting->open[last].place)
        return SECOND_ELSE;
    nesting->open[last].else_place = place;
    return SOUND;
}

/* What is wrong with the nesting at a step. Where nothing is, the step opens, divides or closes its block. */
static enum fault take_step(struct nesting *nesting, unsigned op, size_t place)
{
    if (op == OP_ELSE)
        return take_else(nesting, place);
    if (op == OP_END && nesting->depth == 0)
        return NO_OPENING;
    if (op == OP_END)
        nesting->depth--;
    if (op != OP_IF && op != OP_WHILE)
        return SOUND;
    if (nesting->depth == DEEPEST)
        return TOO_DEEP;
    nesting->open[nesting->depth].op = op;
    nesting->open[nesting->depth].place = place;
    nesting->open[nesting->depth].else_place = place;
    nesting->depth++;
    return SOUND;
}

/* Which fault of nesting is told at the place. Up to there the routine nests as it should; if it does there too, the step is an opening
 * that is never closed. */
static void explain_nesting(FILE *out, const struct refused *refused)
{
    struct spot spot = print_spot(out, refused);
    struct nesting nesting = {.depth = 0};
    enum fault fault = SOUND;
    for (size_t place = 0; place <= spot.place; place++)
        fault = take_step(&nesting, step_of(bytes_at(refused->book, &spot, place)).op, place);
    size_t last = nesting.depth > 0 ? nesting.depth - 1 : 0;
    switch (fault) {
    case NO_OPENING:
        fprintf(out, "a marker without its opening: no if or while is open here\n");
        break;
    case SECOND_ELSE:
        fprintf(out, "a second else: the if at place %zu has one at place %zu\n", nesting.open[last].place, nesting.open[last].else_place);
        break;
    case ELSE_IN_WHILE:
        fprintf(out, "an else in a while: the while at place %zu is open here\n", nesting.open[last].place);
        break;
    case TOO_DEEP:
        fprintf(out, "depth %d: %d ifs and whiles are open here, and no more may be\n", DEEPEST + 1, DEEPEST);
        break;
    case SOUND:
        fprintf(out, "an opening never closed: the routine's %zu steps have no end for it\n", spot.count);
    }
}

/* The place of the end that closes the while at the spot. */
static size_t end_of(const uint8_t *book, const struct spot *spot)
{
    size_t place = spot->place;
    for (size_t depth = 1; depth > 0;) {
        unsigned op = step_of(bytes_at(book, spot, ++place)).op;
        depth += op == OP_IF || op == OP_WHILE;
        depth -= op == OP_END;
    }
    return place;
}

/* How far the body of the while at the place goes, and what pauses. */
static void explain_while(FILE *out, const struct refused *refused)
{
    struct spot spot = print_spot(out, refused);
    fprintf(out, "up to its end at place %zu no step pauses on every way through its body\n", end_of(refused->book, &spot));
    fprintf(out, "what pauses: rest, rest for 1 round or more, and an if with an else where both blocks pause\n");
}

void print_book_refusal(FILE *out, const char *file, const uint8_t *book, size_t size, struct zulqenat_verdict verdict)
{
    static void (*const explanations[])(FILE *, const struct refused *) = {
        NULL, explain_size, explain_counts, explain_offsets, explain_directory, explain_step, explain_nesting, explain_while,
    };
    struct refused refused = {book, size, verdict.place};
    fprintf(out, "%s: refused %" PRIu32 " %" PRIu32 ": %s\n", file, verdict.number, verdict.place, refusal_meaning(verdict.number));
    if (verdict.number > 0 && verdict.number < sizeof explanations / sizeof explanations[0])
        explanations[verdict.number](out, &refused);
}
