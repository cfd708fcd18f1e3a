#include <string.h>

#include "stored_game.h"
#include "site_record.h"
#include "zulqenat.h"

/* A part of a text. */
struct piece {
    const char *text;
    size_t length;
};

/* A record that is read line by line: what is left of it, and the number of the line read last. */
struct lines {
    struct piece left;
    size_t number;
};

/* Where this bench's record is being compared: the play, and the set-up, order or round. */
struct position {
    struct piece play;
    struct piece last;
};

static int begins_with(struct piece piece, const char *front)
{
    return piece.length >= strlen(front) && memcmp(piece.text, front, strlen(front)) == 0;
}

/* What is behind a front that the piece begins with. */
static struct piece behind(struct piece piece, const char *front)
{
    return (struct piece){piece.text + strlen(front), piece.length - strlen(front)};
}

static int same(struct piece left, struct piece right)
{
    return left.length == right.length && memcmp(left.text, right.text, left.length) == 0;
}

/* Reads the next line, without its end; 0 where there is none that is ended. */
static int next_line(struct lines *lines, struct piece *line)
{
    const char *text = lines->left.text;
    const char *end = memchr(text, '\n', lines->left.length);
    if (end == NULL)
        return 0;
    line->text = text;
    line->length = (size_t)(end - text);
    lines->left.text += line->length + 1;
    lines->left.length -= line->length + 1;
    lines->number++;
    return 1;
}

/* Keeps the position up to date with a line of this bench's record. */
static void follow(struct position *position, struct piece line)
{
    if (begins_with(line, "play "))
        position->play = behind(line, "play ");
    else if (begins_with(line, "set-up") || begins_with(line, "order ") || begins_with(line, "round "))
        position->last = line;
}

/* The bytes of a stored game. */
struct game {
    size_t length;
    uint8_t bytes[ZULQENAT_STORED_BYTES];
};

enum { NO_DIGIT = 16 };

/* The number that a hexadecimal digit stands for, or NO_DIGIT. */
static unsigned digit(char c)
{
    static const char digits[] = "0123456789abcdef";
    const char *at = memchr(digits, c, NO_DIGIT);
    return at != NULL ? (unsigned)(at - digits) : NO_DIGIT;
}

/* Reads hexadecimal digits as the bytes of a stored game; 0 where they are not. */
static int read_game(struct piece piece, struct game *game)
{
    game->length = piece.length / 2;
    if (piece.length % 2 != 0 || game->length > sizeof game->bytes)
        return 0;
    for (size_t i = 0; i < game->length; i++) {
        unsigned high = digit(piece.text[2 * i]), low = digit(piece.text[2 * i + 1]);
        if (high == NO_DIGIT || low == NO_DIGIT)
            return 0;
        game->bytes[i] = (uint8_t)(16 * high + low);
    }
    return 1;
}

static int is_game(struct piece piece)
{
    struct game game;
    return read_game(piece, &game);
}

/* Writes how two stored games differ. */
static void write_games(FILE *out, struct piece other, struct piece own)
{
    struct game theirs, mine;
    size_t byte = 0;
    read_game(other, &theirs);
    read_game(own, &mine);
    while (byte < theirs.length && byte < mine.length && theirs.bytes[byte] == mine.bytes[byte])
        byte++;
    if (byte == theirs.length || byte == mine.length) {
        fprintf(out, ": the other bench had %zu bytes; this one has %zu", theirs.length, mine.length);
        return;
    }
    fprintf(out, ", byte %zu, in ", byte);
    write_part(out, mine.bytes, mine.length, byte);
    fprintf(out, ": the other bench had %u; this one has %u", (unsigned)theirs.bytes[byte], (unsigned)mine.bytes[byte]);
}

/* Whether a piece is the word none or has only the characters of numbers in a row, and at least one. */
static int is_value(struct piece piece)
{
    static const char characters[] = "0123456789-, ", none[] = "none";
    if (same(piece, (struct piece){none, strlen(none)}))
        return 1;
    for (size_t i = 0; i < piece.length; i++)
        if (memchr(characters, piece.text[i], strlen(characters)) == NULL)
            return 0;
    return piece.length > 0;
}

static void write_piece(FILE *out, struct piece piece)
{
    fwrite(piece.text, 1, piece.length, out);
}

/* Writes how two values differ. */
static void write_values(FILE *out, struct piece other, struct piece own)
{
    fprintf(out, ": the other bench had ");
    write_piece(out, other);
    fprintf(out, "; this one has ");
    write_piece(out, own);
}

/* The lines that may differ, each by the words in front of what it tells: whether another bench's line tells such a thing at all, and how
 * two such things differ. */
static const struct fact {
    const char *front;
    const char *name;
    int (*is_formed)(struct piece piece);
    void (*write)(FILE *out, struct piece other, struct piece own);
} FACTS[] = {
    {"verdict ", "verdict (number and place)", is_value, write_values},
    {"passes ", "passes", is_value, write_values},
    {"marks ", "marks (routine and number)", is_value, write_values},
    {"cut-off total ", "cut-off total", is_value, write_values},
    {"stored game ", "stored game", is_game, write_games},
};

/* What two lines that are not the same tell; null where they do not tell the same thing, or the other bench's line is not formed so. */
static const struct fact *fact_of(struct piece other, struct piece own)
{
    for (size_t i = 0; i < sizeof FACTS / sizeof FACTS[0]; i++) {
        const char *front = FACTS[i].front;
        if (begins_with(own, front) && begins_with(other, front) && FACTS[i].is_formed(behind(other, front)))
            return &FACTS[i];
    }
    return NULL;
}

/* Writes where two lines differ, and how. */
static void write_difference(FILE *out, const struct position *position, const struct fact *fact, struct piece other, struct piece own)
{
    fprintf(out, "play \"");
    write_piece(out, position->play);
    fprintf(out, "\", ");
    write_piece(out, position->last);
    fprintf(out, ", %s", fact->name);
    fact->write(out, behind(other, fact->front), behind(own, fact->front));
}

/* Compares the next line of the other bench's record with that of this one; 0 where they are not the same, which is written. */
static int compare_line(FILE *out, const char *name, struct lines *others, const struct position *position, struct piece own)
{
    struct piece other;
    if (!next_line(others, &other)) {
        fprintf(out, "%s is cut short: line %zu is %s", name, others->number + 1, others->left.length > 0 ? "not whole" : "missing");
        return 0;
    }
    if (same(other, own))
        return 1;
    const struct fact *fact = fact_of(other, own);
    if (fact != NULL)
        write_difference(out, position, fact, other, own);
    else
        fprintf(out, "line %zu of %s is not what a record of these plays has there", others->number, name);
    return 0;
}

void site_compare(FILE *out, const char *name, const uint8_t *other, size_t size, const char *own, size_t length)
{
    struct lines others = {{(const char *)other, size}, 0}, owns = {{own, length}, 0};
    struct position position = {{"", 0}, {"", 0}};
    struct piece line;
    if (!begins_with(others.left, SITE_RECORD_FORM "\n")) {
        fprintf(out, "%s is no record: its first line is not \"%s\"", name, SITE_RECORD_FORM);
        return;
    }
    while (next_line(&owns, &line)) {
        follow(&position, line);
        if (!compare_line(out, name, &others, &position, line))
            return;
    }
    if (others.left.length > 0)
        fprintf(out, "%s has lines too many, from line %zu on", name, others.number + 1);
}
