/* check_book FILE: says whether the file is a book that is accepted, and then which routines are never started, or why it is refused.
 * Exit status: 0 accepted, 1 refused, 2 the file cannot be read. */
#include <stdio.h>
#include <stdlib.h>

#include "zulqenat.h"

enum { ACCEPTED = 0, REFUSED = 1, UNREADABLE = 2 };

enum { MOST_ROUTINES = 64 };

static const char *meaning(uint32_t number)
{
    switch (number) {
    case 1: return "fewer than 12 bytes";
    case 2: return "a count is outside its range";
    case 3: return "an offset or the length is wrong";
    case 4: return "the directory breaks its rule";
    case 5: return "a step has an unknown op, a field out of range or a stray field";
    case 6: return "wrong nesting";
    case 7: return "a while's body does not pause";
    default: return "unknown number";
    }
}

/* All bytes of a file, to be freed by the caller; null where it cannot be read. */
static uint8_t *read_all(FILE *file, size_t *length)
{
    size_t room = 16384;
    uint8_t *bytes = malloc(room);
    *length = 0;
    while (bytes != NULL) {
        *length += fread(bytes + *length, 1, room - *length, file);
        if (*length < room)
            break;
        if (room > SIZE_MAX / 2) {
            free(bytes);
            return NULL;
        }
        room *= 2;
        uint8_t *larger = realloc(bytes, room);
        if (larger == NULL)
            free(bytes);
        bytes = larger;
    }
    if (bytes != NULL && ferror(file)) {
        free(bytes);
        return NULL;
    }
    return bytes;
}

/* A line for each routine that no chain of start steps leads to. */
static void print_unstarted(const uint8_t *book, size_t length)
{
    uint8_t names[MOST_ROUTINES];
    struct zulqenat_names unstarted = zulqenat_unstarted(book, length, names, sizeof names);
    for (size_t i = 0; i < unstarted.count; i++)
        printf("routine %u is never started\n", (unsigned)names[i]);
}

static int check(const uint8_t *book, size_t length)
{
    struct zulqenat_verdict verdict = zulqenat_check_book(book, length);
    if (verdict.number == 0) {
        printf("accepted\n");
        print_unstarted(book, length);
        return ACCEPTED;
    }
    printf("refused %u %u: %s\n", (unsigned)verdict.number, (unsigned)verdict.place, meaning(verdict.number));
    return REFUSED;
}

int main(int argc, char **argv)
{
    if (argc != 2) {
        fprintf(stderr, "usage: check_book FILE\n");
        return UNREADABLE;
    }
    FILE *file = fopen(argv[1], "rb");
    if (file == NULL) {
        perror(argv[1]);
        return UNREADABLE;
    }
    size_t length;
    uint8_t *book = read_all(file, &length);
    fclose(file);
    if (book == NULL) {
        fprintf(stderr, "%s: cannot be read\n", argv[1]);
        return UNREADABLE;
    }
    int status = check(book, length);
    free(book);
    return status;
}
