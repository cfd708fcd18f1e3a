#include "site_plays.h"

#include "book.h"

/* The rows of a table of steps, by the ops and fields of document 01. */
#define ROUTINE {SITE_ROUTINE_BEGINS, 0, 0, 0}
#define TABLE_END {SITE_TABLE_ENDS, 0, 0, 0}
#define MARK(number) {OP_MARK, 0, 0, number}
#define SET(counter, number) {OP_SET, counter, 0, number}
#define ADD(counter, number) {OP_ADD, counter, 0, number}
#define TAKE(counter, other) {OP_TAKE, counter, other, 0}
#define SIGNAL(signal) {OP_SIGNAL, signal, 0, 0}
#define SIGNAL_WITH(signal, counter) {OP_SIGNAL_WITH_NUMBER, signal, counter, 0}
#define REST {OP_REST, 0, 0, 0}
#define REST_FOR(rounds) {OP_REST_N, 0, 0, rounds}
#define WAIT(signal) {OP_WAIT, signal, 0, 0}
#define WAIT_FOR(signal, rounds) {OP_WAIT_N, signal, 0, rounds}
#define JOIN(routine) {OP_JOIN, routine, 0, 0}
#define JOIN_FOR(routine, rounds) {OP_JOIN_N, routine, 0, rounds}
#define READ(signal, position, counter) {OP_READ, signal, counter, position}
#define START(routine) {OP_START, routine, 0, 0}
#define STOP(routine) {OP_STOP, routine, 0, 0}
#define SUSPEND(routine) {OP_SUSPEND, routine, 0, 0}
#define RESUME(routine) {OP_RESUME, routine, 0, 0}
#define IF(counter, relation, number) {OP_IF, counter, relation, number}
#define ELSE {OP_ELSE, 0, 0, 0}
#define WHILE(counter, relation, number) {OP_WHILE, counter, relation, number}
#define END {OP_END, 0, 0, 0}

/* Two steps that no book may have. */
#define UNKNOWN_OP {OP_COUNT, 0, 0, 0}
#define REST_WITH_STRAY_FIELD {OP_REST, 0, 0, 1}

/* The relations of an if and of a while: the counter against the number. */
enum { EQUAL = 0, LESS = 1, GREATER = 2 };

/* The row behind the last order, and the orders of a play without any. */
#define ORDERS_END {0, 0, 0}
static const struct site_order no_orders[] = {ORDERS_END};

/* Passes that are not looked at. */
enum { ANY = 0 };

/* Where a routine stands, shorter. */
#define NOT_STARTED {ZULQENAT_NOT_STARTED, 0, 0}
#define RESTED_AT(place) {ZULQENAT_RESTED, 0, place}
#define ENDED_AT(place) {ZULQENAT_ENDED, 0, place}

/* Document 01's T3: routine 0 waits, and in round 2 routine 1, which is behind it in the playing order, gives the signal. */
static const struct site_row later_signal[] = {
    ROUTINE, START(1), WAIT(0), MARK(7),
    ROUTINE, SIGNAL(0),
    TABLE_END,
};
static const struct site_expected later_signal_rounds[] = {
    {2, "none", {RESTED_AT(1), NOT_STARTED}},
    {2, "0 7", {ENDED_AT(3), ENDED_AT(1)}},
};

/* Document 01's T5: in round 2 routine 1 gives the signal that routine 0 waits for, and routine 0 then gives the one that routine 1 waits
 * for. */
static const struct site_row signals_both_ways[] = {
    ROUTINE, START(1), REST, WAIT(0), SIGNAL(1),
    ROUTINE, SIGNAL(0), WAIT(1), MARK(5),
    TABLE_END,
};
static const struct site_expected signals_both_ways_rounds[] = {
    {1, "none", {RESTED_AT(2), NOT_STARTED}},
    {2, "1 5", {ENDED_AT(4), ENDED_AT(3)}},
};

/* Two routines wait for a signal each. Nobody gives one; in front of round 4 a signal is broadcast that nobody waits for. In front of round
 * 6 the signal of routine 0 is broadcast, and it alone acts. */
static const struct site_row absent_signals[] = {
    ROUTINE, START(1), WAIT(0), MARK(7),
    ROUTINE, WAIT(1), MARK(3),
    TABLE_END,
};
static const struct site_order absent_signals_orders[] = {
    {4, ZULQENAT_BROADCAST, 2},
    {6, ZULQENAT_BROADCAST, 0},
    ORDERS_END,
};
static const struct site_expected absent_signals_rounds[] = {
    {2, "none", {RESTED_AT(1), NOT_STARTED}},
    {2, "none", {RESTED_AT(1), RESTED_AT(0)}},
    {2, "none", {RESTED_AT(1), RESTED_AT(0)}},
    {2, "none", {RESTED_AT(1), RESTED_AT(0)}},
    {2, "none", {RESTED_AT(1), RESTED_AT(0)}},
    {3, "0 7", {ENDED_AT(3), RESTED_AT(0)}},
};

/* Routine 1 makes a mark in each round. It is ordered to be suspended and resumed in one round: first suspended in front of round 3, first
 * resumed in front of round 6, and, being suspended, both ways again in front of rounds 7 and 8. Rounds 5 and 9 resume it. */
static const struct site_row suspended_by_order[] = {
    ROUTINE, START(1),
    ROUTINE, WHILE(0, EQUAL, 0), MARK(4), REST, END,
    TABLE_END,
};
static const struct site_order suspended_by_order_orders[] = {
    {3, ZULQENAT_SUSPEND, 1},
    {3, ZULQENAT_RESUME, 1},
    {5, ZULQENAT_RESUME, 1},
    {6, ZULQENAT_RESUME, 1},
    {6, ZULQENAT_SUSPEND, 1},
    {7, ZULQENAT_RESUME, 1},
    {7, ZULQENAT_SUSPEND, 1},
    {8, ZULQENAT_SUSPEND, 1},
    {8, ZULQENAT_RESUME, 1},
    {9, ZULQENAT_RESUME, 1},
    ORDERS_END,
};
#define SUSPENDED_WITH(flags) {ZULQENAT_CONTINUING, ZULQENAT_SUSPENDED | (flags), 3}
static const struct site_expected suspended_by_order_rounds[] = {
    {ANY, "none", {ENDED_AT(1), NOT_STARTED}},
    {ANY, "1 4", {ENDED_AT(1), RESTED_AT(3)}},
    {ANY, "none", {ENDED_AT(1), SUSPENDED_WITH(0)}},
    {ANY, "none", {ENDED_AT(1), SUSPENDED_WITH(0)}},
    {ANY, "1 4", {ENDED_AT(1), RESTED_AT(3)}},
    {ANY, "none", {ENDED_AT(1), SUSPENDED_WITH(0)}},
    {ANY, "none", {ENDED_AT(1), SUSPENDED_WITH(0)}},
    {ANY, "none", {ENDED_AT(1), SUSPENDED_WITH(0)}},
    {ANY, "1 4", {ENDED_AT(1), RESTED_AT(3)}},
};

/* As before, but routine 0 suspends and resumes routine 1 by its steps, for the round that follows: in round 2 the suspend comes first, in
 * round 3 the resume. What it does in round 4 resumes routine 1 for round 5. */
static const struct site_row suspended_by_step[] = {
    ROUTINE, START(1), REST, SUSPEND(1), RESUME(1), REST, RESUME(1), SUSPEND(1), REST, RESUME(1),
    ROUTINE, WHILE(0, EQUAL, 0), MARK(4), REST, END,
    TABLE_END,
};
enum { TO_BOTH = ZULQENAT_TO_SUSPEND | ZULQENAT_TO_RESUME };
static const struct site_expected suspended_by_step_rounds[] = {
    {ANY, "none", {RESTED_AT(2), NOT_STARTED}},
    {ANY, "1 4", {RESTED_AT(5), {ZULQENAT_RESTED, TO_BOTH, 3}}},
    {ANY, "none", {RESTED_AT(8), SUSPENDED_WITH(TO_BOTH)}},
    {ANY, "none", {ENDED_AT(9), SUSPENDED_WITH(ZULQENAT_TO_RESUME)}},
    {ANY, "1 4", {ENDED_AT(9), RESTED_AT(3)}},
};

/* In round 2 routine 1 gives the numbers 5 and 8 with signal 0, and routine 2 gives -4. Routine 0, which was there first, reads them into
 * counters 2 to 4 and finds no fourth number, so that it rests. In round 3 it adds up: 5 + 8 is greater than 10, and -4 is not equal to 8.
 */
static const struct site_row numbers[] = {
    ROUTINE, START(1), START(2), REST, READ(0, 1, 2), READ(0, 2, 3), READ(0, 3, 4), READ(0, 4, 5),
    TAKE(2, 3), IF(2, GREATER, 10), MARK(1), ELSE, MARK(2), END,
    IF(4, EQUAL, 8), MARK(3), ELSE, MARK(4), END,
    ROUTINE, SET(0, 5), SIGNAL_WITH(0, 0), ADD(0, 3), SIGNAL_WITH(0, 0),
    ROUTINE, SET(1, -4), SIGNAL_WITH(0, 1),
    TABLE_END,
};

/* Routine 0 waits for signal 0, which nobody gives, in rounds 1 to 3, and makes mark 1 in round 4. It waits for signal 1, which routine 1
 * gives in round 5, and makes mark 2 then. It joins routine 1, which ends in round 6, and makes mark 3 then. It joins routine 2, which
 * never ends, in rounds 6 and 7, and makes mark 4 in round 8. Counts of 0 and below are past at once. */
static const struct site_row timed_steps[] = {
    ROUTINE, START(1), START(2), WAIT_FOR(0, 3), MARK(1), WAIT_FOR(1, 3), MARK(2), JOIN_FOR(1, 4), MARK(3), JOIN_FOR(2, 2), MARK(4),
    REST_FOR(0), WAIT_FOR(0, -1), JOIN_FOR(2, 0), MARK(5),
    ROUTINE, REST_FOR(3), SIGNAL(1), REST, MARK(6),
    ROUTINE, WHILE(0, LESS, 1), REST_FOR(2), END,
    TABLE_END,
};

/* Routine 0 stops routine 1, and routine 3 before anybody started it: in round 3 it joins both, since their end signals are there. It joins
 * routine 2, which ends by itself in round 4. Routine 1 was stopped, so that a later join is past at once, and cannot be started again;
 * routine 3 can be started, makes its mark in round 7, and is joined there. */
static const struct site_row stop_and_join[] = {
    ROUTINE, START(1), START(2), REST, STOP(1), STOP(3), JOIN(1), MARK(1), JOIN(3), MARK(2), JOIN(2), MARK(3),
    REST, REST, JOIN(1), MARK(4), START(1), START(3), JOIN(3), MARK(5),
    ROUTINE, WHILE(0, GREATER, -1), MARK(6), REST, END,
    ROUTINE, REST_FOR(2), MARK(7),
    ROUTINE, MARK(8),
    TABLE_END,
};

/* Counters 0 and 1 run into their ends in round 1, by additions of a number and of a counter. Round 2 cuts off 500,000 of counter 0; then
 * routine 1 sets it to 100, so that round 3 cuts off nothing and round 4 cuts off 100. Counter 1 comes back from its lower end. Round 5
 * makes the largest mark and the smallest. */
static const struct site_row counters_at_their_ends[] = {
    ROUTINE, START(1), SET(0, HIGHEST_NUMBER - 1), ADD(0, 2), SET(1, LOWEST_NUMBER), ADD(1, -1), TAKE(0, 0), TAKE(1, 1), REST,
    WHILE(2, LESS, 3), ADD(0, 500000), ADD(1, 200000), ADD(2, 1), IF(2, EQUAL, 2), MARK(2), REST, ELSE, MARK(-2), REST_FOR(1), END, END,
    IF(0, GREATER, HIGHEST_NUMBER - 1), MARK(HIGHEST_NUMBER), END, IF(1, LESS, -250000), MARK(LOWEST_NUMBER), ELSE, MARK(0), END,
    ROUTINE, SET(0, 100),
    TABLE_END,
};

/* Orders of all five kinds, and refused ones among them: an unknown kind, and numbers not below the count of signals, 2, or of routines, 3.
 * Routine 0 waits for signal 0, a round at most each time: it finds it in round 2, and in round 4 it goes on without. It is stopped in
 * front of round 5. Routine 1 waits for signal 1, which is broadcast in front of round 3, and joins routine 2. That is ordered to start
 * twice, of which the second adds nothing; it is suspended in round 4 and ends in round 6. */
static const struct site_row orders_and_refused_orders[] = {
    ROUTINE, START(1), WHILE(0, EQUAL, 0), WAIT_FOR(0, 1), MARK(1), REST, END,
    ROUTINE, WAIT(1), MARK(2), JOIN(2), MARK(3),
    ROUTINE, REST_FOR(2), MARK(4),
    TABLE_END,
};
enum { UNKNOWN_KIND = 5 };
static const struct site_order orders_and_refused_orders_orders[] = {
    {1, UNKNOWN_KIND, 0},
    {1, ZULQENAT_BROADCAST, 2},
    {1, ZULQENAT_START, 3},
    {2, ZULQENAT_BROADCAST, 0},
    {2, ZULQENAT_STOP, 64},
    {3, ZULQENAT_START, 2},
    {3, ZULQENAT_START, 2},
    {3, ZULQENAT_BROADCAST, 1},
    {4, ZULQENAT_SUSPEND, 2},
    {4, ZULQENAT_SUSPEND, 3},
    {5, ZULQENAT_RESUME, UINT32_MAX},
    {5, ZULQENAT_RESUME, 2},
    {5, ZULQENAT_STOP, 0},
    ORDERS_END,
};

const struct site_play site_plays[] = {
    {"later signal", 2, {1, 0, later_signal}, 2, later_signal_rounds, no_orders},
    {"signals both ways", 2, {2, 0, signals_both_ways}, 2, signals_both_ways_rounds, no_orders},
    {"absent signals", 3, {3, 0, absent_signals}, 6, absent_signals_rounds, absent_signals_orders},
    {"suspended by order", 4, {0, 1, suspended_by_order}, 9, suspended_by_order_rounds, suspended_by_order_orders},
    {"suspended by step", 4, {0, 1, suspended_by_step}, 5, suspended_by_step_rounds, no_orders},
    {"numbers", 0, {1, 6, numbers}, 4, NULL, no_orders},
    {"timed steps", 0, {2, 1, timed_steps}, 9, NULL, no_orders},
    {"stop and join", 0, {0, 1, stop_and_join}, 8, NULL, no_orders},
    {"counters at their ends", 0, {0, 3, counters_at_their_ends}, 6, NULL, no_orders},
    {"orders and refused orders", 0, {2, 1, orders_and_refused_orders}, 7, NULL, orders_and_refused_orders_orders},
};
const size_t site_play_count = sizeof site_plays / sizeof site_plays[0];

/* Each fault stands behind a first routine, and behind the first step of its own. */
static const struct site_row unknown_op[] = {ROUTINE, MARK(1), REST, ROUTINE, MARK(2), UNKNOWN_OP, MARK(3), TABLE_END};
static const struct site_row no_such_signal[] = {ROUTINE, SIGNAL(1), ROUTINE, REST, WAIT(2), TABLE_END};
static const struct site_row stray_field[] = {ROUTINE, REST, ROUTINE, REST, REST_WITH_STRAY_FIELD, TABLE_END};
/* The end that closes nothing is a 6, and a 5 is told first. */
static const struct site_row unknown_op_behind_an_end[] = {ROUTINE, END, ROUTINE, MARK(1), ROUTINE, REST, UNKNOWN_OP, TABLE_END};
static const struct site_row else_without_if[] = {ROUTINE, REST, ROUTINE, MARK(1), REST, ELSE, MARK(2), TABLE_END};
/* The while is the innermost opening that is never closed. */
static const struct site_row never_closed[] = {
    ROUTINE, REST, ROUTINE, IF(0, LESS, 3), MARK(1), WHILE(0, EQUAL, 0), REST, ROUTINE, REST, TABLE_END,
};
static const struct site_row no_pause[] = {ROUTINE, REST, ROUTINE, MARK(1), WHILE(0, EQUAL, 0), ADD(0, 0), END, TABLE_END};
/* The outer while pauses, though not by the inner one, whose wait does not. */
static const struct site_row wait_is_no_pause[] = {
    ROUTINE, REST, REST, ROUTINE, WHILE(0, EQUAL, 0), WHILE(0, EQUAL, 1), WAIT(0), END, REST, END, TABLE_END,
};

const struct site_faulty_book site_faulty_books[] = {
    {"unknown op", {0, 0, unknown_op}, {5, 3}, 1, 1},
    {"no such signal", {2, 0, no_such_signal}, {5, 2}, 1, 1},
    {"stray field", {0, 0, stray_field}, {5, 2}, 1, 1},
    {"unknown op behind an end", {0, 0, unknown_op_behind_an_end}, {5, 3}, 2, 1},
    {"else without if", {0, 0, else_without_if}, {6, 3}, 1, 2},
    {"opening never closed", {0, 1, never_closed}, {6, 3}, 1, 2},
    {"while without a pause", {0, 1, no_pause}, {7, 2}, 1, 1},
    {"a wait is no pause", {1, 1, wait_is_no_pause}, {7, 3}, 1, 1},
};
const size_t site_faulty_book_count = sizeof site_faulty_books / sizeof site_faulty_books[0];
