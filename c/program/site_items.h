/* The items of the engineer's list that a bench is looked at alone for. What fails first is written, with what was expected and what was
 * found; nothing is written where nothing fails. */
#ifndef SITE_ITEMS_H
#define SITE_ITEMS_H

#include <stdio.h>

/* Whether the built-in books are accepted, and the faulty ones are refused with the right number and place and told in the right words. */
void site_look_at_books(FILE *out);

/* Whether each play that serves the item of this number comes to what is expected of it. */
void site_look_at_plays(FILE *out, unsigned item);

#endif
