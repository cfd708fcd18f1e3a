#include <inttypes.h>
#include <stdio.h>
#include <stdlib.h>

#include "arguments.h"
#include "book.h"
#include "commands.h"
#include "files.h"
#include "words.h"

static const char HELP[] =
    "usage: zulqenat show FILE [ROUTINE]\n"
    "\n"
    "Shows the steps of the book in FILE in words, of all routines or of one. Each\n"
    "step stands behind its place, counted from the routine's first step, 0; what an\n"
    "if or a while holds is indented. A refused book is told as by zulqenat check.\n";

/* The width of a place, and how far a block is indented. */
enum { PLACE_WIDTH = 4, INDENT = 2 };

/* Prints the steps of a routine of the book, which is accepted. */
static void show_routine(const uint8_t *book, size_t size, uint32_t routine)
{
    struct zulqenat_part part = zulqenat_show(book, size, routine);
    size_t count = part.length / STEP_BYTES;
    int depth = 0;
    printf("routine %" PRIu32 ": %zu %s\n", routine, count, count == 1 ? "step" : "steps");
    for (size_t place = 0; place < count; place++) {
        const uint8_t *bytes = book + part.offset + STEP_BYTES * place;
        unsigned op = step_of(bytes).op;
        depth -= op == OP_ELSE || op == OP_END;
        printf("%*zu  %*s", PLACE_WIDTH, place, INDENT * depth, "");
        print_step(stdout, bytes);
        putchar('\n');
        depth += op == OP_IF || op == OP_ELSE || op == OP_WHILE;
    }
}

/* Prints the routine of the number, or all where it is null. */
static int show(const char *file, const uint8_t *book, size_t size, const uint32_t *number)
{
    struct zulqenat_verdict verdict = zulqenat_check_book(book, size);
    if (verdict.number != 0) {
        print_book_refusal(stdout, file, book, size, verdict);
        return REFUSED;
    }
    uint32_t routines = number_at(book, AT_ROUTINES);
    if (number != NULL && *number >= routines) {
        fprintf(stderr, "%s: there is no routine %" PRIu32 "; the book has routines 0 to %" PRIu32 "\n", file, *number, routines - 1);
        return WRONG_USE;
    }
    uint32_t first = number != NULL ? *number : 0;
    uint32_t end = number != NULL ? *number + 1 : routines;
    for (uint32_t routine = first; routine < end; routine++)
        show_routine(book, size, routine);
    return DONE;
}

/* Sorts the arguments, reads the book and shows it. */
int show_command(int argc, char **argv)
{
    static const char command[] = "zulqenat show";
    struct argument arguments[] = {{"FILE", 1, NULL}, {"ROUTINE", 0, NULL}};
    int status = read_arguments(argc, argv, command, HELP, arguments, sizeof arguments / sizeof arguments[0]);
    if (status != GO_ON)
        return status;
    const char *file = arguments[0].word, *routine = arguments[1].word;
    uint32_t number = 0;
    if (routine != NULL && !read_number(routine, &number))
        return wrong_use(command, routine, NOT_A_NUMBER);
    size_t size = 0;
    uint8_t *book = read_file(file, &size);
    if (book == NULL)
        return WRONG_USE;
    status = show(file, book, size, routine != NULL ? &number : NULL);
    free(book);
    return status;
}
