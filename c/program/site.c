#include <stdio.h>
#include <stdlib.h>

#include "arguments.h"
#include "commands.h"
#include "files.h"
#include "site_items.h"
#include "site_record.h"
#include "site_text.h"

static const char HELP[] =
    "usage: zulqenat site [--record FILE | --against FILE]\n"
    "\n"
    "Looks whether this bench works, by built-in books and plays, and prints a line\n"
    "for each item of the engineer's list: ok, or what failed, with what was expected\n"
    "and what was found. Where a line failed, the exit status is 1.\n"
    "\n"
    "  --record FILE   write what this bench makes of the plays to FILE\n"
    "  --against FILE  compare it with what another bench wrote to FILE, and name the\n"
    "                  first difference\n";

static const char COMMAND[] = "zulqenat site";

enum { RECORD, AGAINST, ARGUMENTS };

/* The items of the engineer's list by their numbers; the last is the one that takes two benches. */
enum { BOOKS = 1, TWO_BENCHES = 5 };
static const char *const ITEMS[] = {
    [BOOKS] = "a book loads, or its faulty step is shown",
    [2] = "a waiter is moved in the round of a later signal",
    [3] = "an awaited signal that nobody gives lets nobody act",
    [4] = "suspend and resume for one routine in one round end suspended",
    [TWO_BENCHES] = "two benches agree",
};

/* What is looked at: the item, the record of this bench, and the record of another, or null, with the name of its file. */
struct look {
    unsigned item;
    const char *file;
    char *own;
    size_t own_size;
    uint8_t *other;
    size_t other_size;
};

/* Looks at an item and writes what failed, or nothing. */
static void look_at(FILE *out, const void *what)
{
    const struct look *look = what;
    if (look->item == BOOKS)
        site_look_at_books(out);
    else if (look->item < TWO_BENCHES)
        site_look_at_plays(out, look->item);
    else
        site_compare(out, look->file, look->other, look->other_size, look->own, look->own_size);
}

/* Looks at an item and prints its line. The answer is the exit status. */
static int print_item(const struct look *look)
{
    size_t length = 0;
    char *failure = site_text_of(look_at, look, &length);
    int holds = failure != NULL && length == 0;
    printf("%u. %s: %s", look->item, ITEMS[look->item], holds ? "ok" : "failed: ");
    printf("%s\n", failure != NULL ? failure : "no memory to look at it");
    free(failure);
    return holds ? DONE : REFUSED;
}

/* Prints the line of two benches where nothing is compared: how to compare, with the record's file where one was written. */
static void print_uncompared(const char *file)
{
    printf("%d. %s: nothing was compared; ", TWO_BENCHES, ITEMS[TWO_BENCHES]);
    if (file == NULL)
        printf("write a record at one bench by %s --record FILE, and compare at the other by %s --against FILE\n", COMMAND, COMMAND);
    else
        printf("the record is in %s; compare at the other bench by %s --against %s\n", file, COMMAND, file);
}

/* Plays the plays for the record of this bench, and writes it or reads that of another as the arguments say; 0 where that cannot be. */
static int prepare(struct look *look, const char *record, const char *against)
{
    look->own = site_record(&look->own_size);
    if (look->own == NULL) {
        fprintf(stderr, "%s: no memory for the record\n", COMMAND);
        return 0;
    }
    if (record != NULL)
        return write_file(record, (const uint8_t *)look->own, look->own_size);
    look->file = against;
    look->other = against != NULL ? read_file(against, &look->other_size) : NULL;
    return against == NULL || look->other != NULL;
}

/* Prints the line of each item. The answer is the exit status. */
static int print_items(struct look *look, const char *record)
{
    unsigned end = look->other != NULL ? TWO_BENCHES + 1 : TWO_BENCHES;
    int status = DONE;
    for (look->item = BOOKS; look->item < end; look->item++)
        if (print_item(look) != DONE)
            status = REFUSED;
    if (look->other == NULL)
        print_uncompared(record);
    return status;
}

int site_command(int argc, char **argv)
{
    struct argument arguments[ARGUMENTS] = {[RECORD] = {"--record", 0, NULL}, [AGAINST] = {"--against", 0, NULL}};
    int status = read_arguments(argc, argv, COMMAND, HELP, arguments, ARGUMENTS);
    if (status != GO_ON)
        return status;
    const char *record = arguments[RECORD].word, *against = arguments[AGAINST].word;
    if (record != NULL && against != NULL)
        return wrong_use(COMMAND, arguments[AGAINST].name, "given together with --record");
    struct look look = {.item = 0};
    status = prepare(&look, record, against) ? print_items(&look, record) : WRONG_USE;
    free(look.own);
    free(look.other);
    return status;
}
