#include <errno.h>
#include <stdio.h>
#include <stdlib.h>
#include <string.h>

#include "files.h"

enum { FIRST_ROOM = 16384 };

/* Memory of twice the room, with what the lent memory holds; null, with the lent memory freed, where there is none. */
static uint8_t *doubled(uint8_t *bytes, size_t *room)
{
    uint8_t *larger = *room <= SIZE_MAX / 2 ? realloc(bytes, *room * 2) : NULL;
    if (larger == NULL) {
        free(bytes);
        errno = ENOMEM;
    }
    *room *= 2;
    return larger;
}

/* All bytes of an open file, with a 0 behind them; null where it cannot be read. */
static uint8_t *read_all(FILE *file, size_t *size)
{
    size_t room = FIRST_ROOM;
    uint8_t *bytes = malloc(room);
    *size = 0;
    while (bytes != NULL) {
        *size += fread(bytes + *size, 1, room - *size, file);
        if (*size < room)
            break;
        bytes = doubled(bytes, &room);
    }
    if (bytes != NULL && ferror(file)) {
        free(bytes);
        return NULL;
    }
    if (bytes != NULL)
        bytes[*size] = 0;
    return bytes;
}

uint8_t *read_file(const char *name, size_t *size)
{
    errno = 0;
    FILE *file = fopen(name, "rb");
    uint8_t *bytes = file != NULL ? read_all(file, size) : NULL;
    if (bytes == NULL)
        fprintf(stderr, "%s: cannot be read: %s\n", name, strerror(errno));
    if (file != NULL)
        fclose(file);
    return bytes;
}

int write_file(const char *name, const uint8_t *bytes, size_t size)
{
    errno = 0;
    FILE *file = fopen(name, "wb");
    int written = file != NULL && fwrite(bytes, 1, size, file) == size;
    if (file != NULL && fclose(file) != 0)
        written = 0;
    if (!written)
        fprintf(stderr, "%s: cannot be written: %s\n", name, strerror(errno));
    return written;
}
