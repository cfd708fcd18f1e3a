/* What is written to a stream, as a text in memory. */
#ifndef SITE_TEXT_H
#define SITE_TEXT_H

#include <stddef.h>
#include <stdio.h>

/* What `write` writes of `what`, with a 0 behind it, to be freed by the caller; null where there is no memory. */
char *site_text_of(void (*write)(FILE *out, const void *what), const void *what, size_t *length);

#endif
