#include <stdio.h>
#include <stdlib.h>

#include "arguments.h"
#include "commands.h"
#include "files.h"
#include "words.h"

static const char HELP[] =
    "usage: zulqenat check FILE\n"
    "\n"
    "Says whether the book in FILE is accepted, and names the routines that no chain\n"
    "of start steps leads to from routine 0. For a refused book it prints number,\n"
    "place and meaning of the refusal, and below it what is wrong and where; places\n"
    "in a routine are counted from its first step, 0.\n";

/* Prints that a book is accepted and which of its routines are never started, or why it is refused. */
static int check(const char *file, const uint8_t *book, size_t size)
{
    uint8_t names[ZULQENAT_ROUTINES];
    struct zulqenat_names unstarted = zulqenat_unstarted(book, size, names, sizeof names);
    if (unstarted.verdict.number != 0) {
        print_book_refusal(stdout, file, book, size, unstarted.verdict);
        return REFUSED;
    }
    printf("%s: accepted\n", file);
    for (size_t i = 0; i < unstarted.count; i++)
        printf("routine %u is never started\n", (unsigned)names[i]);
    return DONE;
}

/* Sorts the arguments, reads the book and checks it. */
int check_command(int argc, char **argv)
{
    struct argument file = {"FILE", 1, NULL};
    int status = read_arguments(argc, argv, "zulqenat check", HELP, &file, 1);
    if (status != GO_ON)
        return status;
    size_t size = 0;
    uint8_t *book = read_file(file.word, &size);
    if (book == NULL)
        return WRONG_USE;
    status = check(file.word, book, size);
    free(book);
    return status;
}
