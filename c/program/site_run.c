#include <inttypes.h>
#include <string.h>

#include "book.h"
#include "orders.h"
#include "site_plays.h"

/* Writes a number of 16 bits. */
static void put_number(uint8_t *at, unsigned number)
{
    at[0] = (uint8_t)number;
    at[1] = (uint8_t)(number >> 8);
}

/* Writes the eight bytes of a step. */
static void put_step(uint8_t *at, const struct site_row *row)
{
    uint32_t n = (uint32_t)row->n;
    at[0] = row->op;
    at[1] = row->a;
    put_number(at + 2, row->b);
    put_number(at + 4, n & 65535);
    put_number(at + 6, n >> 16);
}

static unsigned count_routines(const struct site_row *rows)
{
    unsigned count = 0;
    for (; rows->op != SITE_TABLE_ENDS; rows++)
        count += rows->op == SITE_ROUTINE_BEGINS;
    return count;
}

/* Writes the directory's entries and the steps, and answers how many steps there are. */
static unsigned put_routines(const struct site_row *rows, uint8_t *entry, uint8_t *at)
{
    unsigned steps = 0, first = 0;
    for (; rows->op != SITE_TABLE_ENDS; rows++) {
        if (rows->op == SITE_ROUTINE_BEGINS) {
            first = steps;
            put_number(entry, first);
            entry += ENTRY_BYTES;
        } else {
            put_step(at + STEP_BYTES * steps, rows);
            steps++;
        }
        put_number(entry - ENTRY_BYTES + AT_ENTRY_COUNT, steps - first);
    }
    return steps;
}

size_t site_make_book(const struct site_table *table, uint8_t *book)
{
    unsigned routines = count_routines(table->rows);
    unsigned steps_offset = HEADER_BYTES + ENTRY_BYTES * routines;
    unsigned steps = put_routines(table->rows, book + HEADER_BYTES, book + steps_offset);
    put_number(book + AT_ROUTINES, routines);
    put_number(book + AT_STEPS, steps);
    put_number(book + AT_SIGNALS, table->signals);
    put_number(book + AT_COUNTERS, table->counters);
    put_number(book + AT_DIRECTORY_OFFSET, HEADER_BYTES);
    put_number(book + AT_STEPS_OFFSET, steps_offset);
    return steps_offset + STEP_BYTES * steps;
}

/* Keeps the answer of a call that writes the game. After a refusal the game is as it was; no length is taken to be above the buffer's. */
static void keep(struct site_run *run, struct zulqenat_verdict verdict, size_t length)
{
    run->verdict = verdict;
    if (verdict.number == 0)
        run->length = length < sizeof run->game ? length : sizeof run->game;
}

void site_begin(struct site_run *run, const struct site_play *play)
{
    memset(run, 0, sizeof *run);
    run->play = play;
    run->next = play->orders;
    run->last = SITE_SET_UP;
    run->size = site_make_book(&play->table, run->book);
    struct zulqenat_stored stored = zulqenat_set_up(run->book, run->size, run->game, sizeof run->game);
    keep(run, stored.verdict, stored.length);
}

/* Gives the next order. */
static void give_order(struct site_run *run)
{
    run->last = SITE_ORDER;
    struct zulqenat_stored stored = zulqenat_order(run->book, run->size, run->game, sizeof run->game, run->length, run->next->kind,
                                                   run->next->number);
    keep(run, stored.verdict, stored.length);
    run->next++;
}

/* Plays the next round. */
static void play_round(struct site_run *run)
{
    run->round++;
    run->last = SITE_ROUND;
    run->played = zulqenat_play(run->book, run->size, run->game, sizeof run->game, run->length, run->marks, ZULQENAT_MARK_NUMBERS);
    keep(run, run->played.verdict, run->played.length);
}

int site_go_on(struct site_run *run)
{
    if (run->round == run->play->rounds)
        return 0;
    if (run->next->round == run->round + 1)
        give_order(run);
    else
        play_round(run);
    return 1;
}

/* Writes the order that was given last: which it is of the play, when it was given, and what it orders. */
static void write_given(FILE *out, const struct site_run *run)
{
    const struct site_order *given = run->next - 1;
    fprintf(out, "order %td, in front of round %u, ", run->next - run->play->orders, given->round);
    write_order(out, given->kind, given->number);
}

void site_write_last(FILE *out, const struct site_run *run)
{
    if (run->last == SITE_SET_UP)
        fprintf(out, "set-up");
    else if (run->last == SITE_ORDER)
        write_given(out, run);
    else
        fprintf(out, "round %u", run->round);
}

void site_write_marks(FILE *out, const void *what)
{
    const struct site_run *run = what;
    size_t most = ZULQENAT_MARK_NUMBERS / 2;
    size_t count = run->played.marks < most ? run->played.marks : most;
    for (size_t i = 0; i < count; i++)
        fprintf(out, "%s%" PRId32 " %" PRId32, i > 0 ? ", " : "", run->marks[2 * i], run->marks[2 * i + 1]);
    if (count == 0)
        fprintf(out, "none");
}
