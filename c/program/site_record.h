/* Records: what a bench makes of the built-in plays, as lines of text that another bench can be compared with. */
#ifndef SITE_RECORD_H
#define SITE_RECORD_H

#include <stddef.h>
#include <stdint.h>
#include <stdio.h>

/* The first line of a record, which names its form. Another number is due where the form or the plays change. */
#define SITE_RECORD_FORM "zulqenat site record 1"

/* The record of this bench, to be freed by the caller; null where there is no memory. */
char *site_record(size_t *length);

/* Compares the record of another bench, which is in a file of this name, with that of this one, and writes the first difference; nothing
 * where they are the same. */
void site_compare(FILE *out, const char *name, const uint8_t *other, size_t size, const char *own, size_t length);

#endif
