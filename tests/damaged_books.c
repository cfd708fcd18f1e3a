/* Reads lines of number, place and book on standard input: checks each book against its line, then damaged in several ways, and names the
 * routines of each that nobody starts.
 * At the end, bytes far longer than any book.
 * Each book lies in memory of just its length, so that valgrind sees a read before or behind it. */
#define _POSIX_C_SOURCE 200809L
#include <inttypes.h>
#include <stdio.h>
#include <stdlib.h>
#include <string.h>

#include "../examples/zulqenat.h"

enum { WAYS = 10, MOST_ADDED = 16, HEADER = 12, STEP = 8, LONG = 100000, UNTOUCHED = 255 };

static uint64_t state = 1;

/* The next pseudo-random number below end, which is not 0 (xorshift). */
static size_t below(size_t end)
{
    state ^= state << 13;
    state ^= state >> 7;
    state ^= state << 17;
    return (size_t)(state % end);
}

static int digit(char c)
{
    return c >= 'a' ? c - 'a' + 10 : c - '0';
}

/* The bytes of a line's book, with room for MOST_ADDED more; null where the line has none. */
static uint8_t *book_of(const char *line, size_t *length)
{
    const char *text = strrchr(line, ' ');
    if (text == NULL)
        return NULL;
    text++;
    *length = strspn(text, "0123456789abcdef") / 2;
    uint8_t *book = malloc(*length + MOST_ADDED);
    for (size_t i = 0; book != NULL && i < *length; i++)
        book[i] = (uint8_t)(digit(text[2 * i]) * 16 + digit(text[2 * i + 1]));
    return book;
}

/* Changes a byte, the header, an op or the length. */
static void damage(uint8_t *book, size_t *length)
{
    size_t added;
    switch (below(5)) {
    case 0:
        if (*length > 0)
            book[below(*length)] = (uint8_t)below(256);
        break;
    case 1:
        if (*length >= HEADER)
            book[below(HEADER)] = (uint8_t)below(256);
        break;
    case 2:
        if (*length >= HEADER + STEP)
            book[*length - STEP * (1 + below((*length - HEADER) / STEP))] = (uint8_t)below(22);
        break;
    case 3:
        *length = below(*length + 1);
        break;
    default:
        added = 1 + below(MOST_ADDED);
        memset(book + *length, (int)below(256), added);
        *length += added;
    }
}

/* Names the routines that nobody starts in memory of just room bytes: the verdict must be that of the book, or 12 where the book is
 * accepted and has more routines; the names rise and are routines of the book, and what is behind them is untouched. */
static int check_names(const uint8_t *book, size_t length, struct zulqenat_verdict verdict, size_t room)
{
    uint8_t *names = malloc(room > 0 ? room : 1);
    if (names == NULL)
        return 0;
    memset(names, UNTOUCHED, room);
    struct zulqenat_names answer = zulqenat_unstarted(book, length, names, room);
    size_t routines = verdict.number == 0 ? book[0] : 0;
    uint32_t number = room < routines ? 12 : verdict.number;
    int fine = answer.verdict.number == number && answer.verdict.place == verdict.place;
    fine = fine && answer.count <= (number == 0 ? routines - 1 : 0);
    for (size_t i = 0; fine && i < room; i++)
        fine = i < answer.count ? names[i] < routines && names[i] > (i > 0 ? names[i - 1] : 0) : names[i] == UNTOUCHED;
    free(names);
    return fine;
}

/* Checks a book in memory of its own; the book must stay as it is, and the number be one of 0 to 7. Where a verdict is
 * expected, it must be that one. Then its routines that nobody starts are named, with too little room, with just enough and with more. */
static int check(const uint8_t *book, size_t length, const struct zulqenat_verdict *expected, unsigned long numbers[8])
{
    uint8_t *lent = malloc(length > 0 ? length : 1);
    if (lent == NULL)
        return 0;
    memcpy(lent, book, length);
    struct zulqenat_verdict verdict = zulqenat_check_book(lent, length);
    size_t routines = length > 0 ? lent[0] : 0;
    int fine = verdict.number <= 7 && check_names(lent, length, verdict, routines > 0 ? routines - 1 : 0)
        && check_names(lent, length, verdict, routines) && check_names(lent, length, verdict, routines + 9)
        && memcmp(lent, book, length) == 0;
    if (expected != NULL)
        fine = fine && verdict.number == expected->number && verdict.place == expected->place;
    if (fine)
        numbers[verdict.number]++;
    free(lent);
    return fine;
}

/* Checks a line's book as it is, then damaged in WAYS ways; how many books were checked, or 0 where one went wrong. */
static unsigned long check_line(const char *line, unsigned long numbers[8])
{
    struct zulqenat_verdict expected;
    if (sscanf(line, "%" SCNu32 " %" SCNu32, &expected.number, &expected.place) != 2)
        return 0;
    for (int way = 0; way <= WAYS; way++) {
        size_t length = 0;
        uint8_t *book = book_of(line, &length);
        if (book == NULL)
            return 0;
        if (way > 0)
            damage(book, &length);
        int fine = check(book, length, way > 0 ? NULL : &expected, numbers);
        free(book);
        if (!fine)
            return 0;
    }
    return WAYS + 1;
}

/* Checks LONG zeros, whose R is out of range; the book of a routine without steps; and that book with other bytes behind it up to
 * LONG, whose length is wrong. How many books were checked, or 0 where one went wrong. */
static unsigned long check_long(unsigned long numbers[8])
{
    static const uint8_t book[] = {1, 0, 0, 0, 0, 0, 0, 0, HEADER, 0, HEADER + 4, 0, 0, 0, 0, 0};
    static const struct zulqenat_verdict accepted = {0, 0}, wrong_count = {2, 0}, wrong_length = {3, 0};
    static uint8_t bytes[LONG];
    if (!check(bytes, LONG, &wrong_count, numbers))
        return 0;
    memset(bytes, 6, LONG);
    memcpy(bytes, book, sizeof book);
    if (!check(bytes, sizeof book, &accepted, numbers) || !check(bytes, LONG, &wrong_length, numbers))
        return 0;
    return 3;
}

int main(void)
{
    unsigned long numbers[8] = {0};
    unsigned long books = 0;
    char *line = NULL;
    size_t room = 0;
    while (getline(&line, &room, stdin) > 0) {
        unsigned long checked = check_line(line, numbers);
        if (checked == 0) {
            printf("went wrong at: %s", line);
            return 1;
        }
        books += checked;
    }
    free(line);
    unsigned long longer = check_long(numbers);
    if (books == 0 || longer == 0) {
        printf("%s\n", books == 0 ? "no books" : "went wrong at the bytes longer than any book");
        return 1;
    }
    printf("%lu books checked; answers 0 to 7:", books + longer);
    for (int i = 0; i < 8; i++)
        printf(" %lu", numbers[i]);
    printf("\n");
    return 0;
}
