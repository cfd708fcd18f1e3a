/* Orders: files of them, and in words. */
#ifndef ORDERS_H
#define ORDERS_H

#include <stddef.h>
#include <stdint.h>
#include <stdio.h>

/* An order, the round before which it is given, counted from 1, and the line that it stands on. */
struct order {
    uint32_t round;
    uint32_t kind;
    uint32_t number;
    size_t line;
};

/* The orders of a file. */
struct orders {
    struct order *all;
    size_t count;
};

/* Reads a file of orders, to be freed by the caller, in the order in which they are given: by their rounds, and for a round by their lines.
 * 0 where the file cannot be read or has a line that is no order; each such line is told on standard error. */
int read_orders(const char *file, struct orders *orders);

/* Writes an order in words, as `start routine 3`. */
void write_order(FILE *out, uint32_t kind, uint32_t number);

#endif
