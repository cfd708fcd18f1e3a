#include <errno.h>
#include <inttypes.h>
#include <stdio.h>
#include <stdlib.h>
#include <string.h>

#include "arguments.h"
#include "files.h"
#include "orders.h"
#include "zulqenat.h"

/* What is between the words of a line. */
static const char BLANKS[] = " \t\r";

/* The kinds of an order in words, by their numbers. */
static const char *const KINDS[] = {
    [ZULQENAT_BROADCAST] = "broadcast",
    [ZULQENAT_START] = "start",
    [ZULQENAT_STOP] = "stop",
    [ZULQENAT_SUSPEND] = "suspend",
    [ZULQENAT_RESUME] = "resume",
};

enum { KIND_COUNT = sizeof KINDS / sizeof KINDS[0] };

static const char NOT_A_KIND[] = "not a kind of order: 0 broadcast, 1 start, 2 stop, 3 suspend, 4 resume";

/* A line's words, and what they should be. */
enum { ROUND, KIND, NUMBER, WORDS };
static const char *const NAMES[] = {"ROUND", "KIND", "NUMBER"};

/* A word of a line, and what is wrong with it; both null where nothing is. */
struct fault {
    const char *word;
    const char *what;
};

/* The kind of an order that a word stands for; 0 where it stands for none. */
static int read_kind(const char *word, uint32_t *kind)
{
    for (uint32_t i = 0; i < KIND_COUNT; i++)
        if (strcmp(word, KINDS[i]) == 0) {
            *kind = i;
            return 1;
        }
    return read_number(word, kind) && *kind < KIND_COUNT;
}

/* Reads the words of a line as an order. */
static struct fault read_words(char *words[WORDS], struct order *order)
{
    if (!read_number(words[ROUND], &order->round))
        return (struct fault){words[ROUND], NOT_A_NUMBER};
    if (order->round == 0)
        return (struct fault){words[ROUND], "not a round; rounds are counted from 1"};
    if (!read_kind(words[KIND], &order->kind))
        return (struct fault){words[KIND], NOT_A_KIND};
    if (!read_number(words[NUMBER], &order->number))
        return (struct fault){words[NUMBER], NOT_A_NUMBER};
    return (struct fault){NULL, NULL};
}

/* Reads a line, of which the first word has been taken off by strtok. */
static struct fault read_line(char *first, struct order *order)
{
    char *words[WORDS] = {first};
    for (size_t i = 1; i < WORDS; i++) {
        words[i] = strtok(NULL, BLANKS);
        if (words[i] == NULL)
            return (struct fault){NAMES[i], "missing"};
    }
    const char *more = strtok(NULL, BLANKS);
    if (more != NULL)
        return (struct fault){more, "one word too many"};
    return read_words(words, order);
}

/* Takes a line of this length into the orders, unless it is empty or a remark. What is wrong with it is the answer. */
static struct fault take_line(char *text, size_t length, size_t line, struct orders *orders)
{
    if (strlen(text) != length)
        return (struct fault){"a byte 0", "not text"};
    char *first = strtok(text, BLANKS);
    if (first == NULL || first[0] == '#')
        return (struct fault){NULL, NULL};
    struct order *order = &orders->all[orders->count];
    struct fault fault = read_line(first, order);
    order->line = line;
    if (fault.what == NULL)
        orders->count++;
    return fault;
}

/* Takes the lines of a text of this size, which a 0 ends, into the orders, and tells each that is wrong; whether none is. */
static int take_lines(const char *file, char *text, size_t size, struct orders *orders)
{
    int sound = 1;
    char *end = text + size;
    for (size_t line = 1; text < end; line++) {
        char *line_end = memchr(text, '\n', (size_t)(end - text));
        if (line_end == NULL)
            line_end = end;
        *line_end = '\0';
        struct fault fault = take_line(text, (size_t)(line_end - text), line, orders);
        if (fault.what != NULL) {
            fprintf(stderr, "%s:%zu: %s: %s\n", file, line, fault.word, fault.what);
            sound = 0;
        }
        text = line_end + 1;
    }
    return sound;
}

/* The order in which orders are given, for qsort: by their rounds, and for a round by their lines. */
static int compare(const void *left, const void *right)
{
    const struct order *a = left, *b = right;
    if (a->round != b->round)
        return a->round < b->round ? -1 : 1;
    return a->line < b->line ? -1 : a->line > b->line;
}

/* How many lines a text of this size has, with what is behind the last line end. */
static size_t count_lines(const uint8_t *text, size_t size)
{
    size_t count = 1;
    for (size_t i = 0; i < size; i++)
        count += text[i] == '\n';
    return count;
}

int read_orders(const char *file, struct orders *orders)
{
    size_t size = 0;
    uint8_t *text = read_file(file, &size);
    if (text == NULL)
        return 0;
    orders->count = 0;
    orders->all = calloc(count_lines(text, size), sizeof orders->all[0]);
    int sound = orders->all != NULL && take_lines(file, (char *)text, size, orders);
    if (orders->all == NULL)
        fprintf(stderr, "%s: cannot be read: %s\n", file, strerror(ENOMEM));
    else
        qsort(orders->all, orders->count, sizeof orders->all[0], compare);
    free(text);
    return sound;
}

void write_order(FILE *out, uint32_t kind, uint32_t number)
{
    if (kind < KIND_COUNT)
        fprintf(out, "%s %s %" PRIu32, KINDS[kind], kind == ZULQENAT_BROADCAST ? "signal" : "routine", number);
    else
        fprintf(out, "kind %" PRIu32 " (unknown), number %" PRIu32, kind, number);
}
