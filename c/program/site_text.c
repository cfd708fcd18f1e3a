#define _POSIX_C_SOURCE 200809L
#include "site_text.h"

#include <stdlib.h>

char *site_text_of(void (*write)(FILE *out, const void *what), const void *what, size_t *length)
{
    char *text = NULL;
    FILE *out = open_memstream(&text, length);
    if (out == NULL)
        return NULL;
    write(out, what);
    int failed = ferror(out);
    if (fclose(out) == 0 && !failed)
        return text;
    free(text);
    return NULL;
}
