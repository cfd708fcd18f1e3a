#include "c_bytes.h"

#include <stdio.h>
#include <stdlib.h>
#include <string.h>

void *memory_of(size_t size)
{
    void *bytes = malloc(size);
    if (bytes == NULL && size == 0)
        bytes = malloc(1);
    if (bytes == NULL) {
        fprintf(stderr, "no memory\n");
        exit(2);
    }
    memset(bytes, UNTOUCHED, size);
    return bytes;
}

uint8_t *copy_of(const uint8_t *bytes, size_t size)
{
    uint8_t *copy = memory_of(size);
    memcpy(copy, bytes, size);
    return copy;
}

int is_untouched(const void *bytes, size_t size)
{
    const uint8_t *each = bytes;
    size_t at = 0;
    while (at < size && each[at] == UNTOUCHED)
        at++;
    return at == size;
}

/* What a hexadecimal digit stands for. */
static int digit(char c)
{
    return c >= 'a' ? c - 'a' + 10 : c - '0';
}

uint8_t *bytes_of(const char *text, size_t *size)
{
    *size = strspn(text, "0123456789abcdef") / 2;
    uint8_t *bytes = memory_of(*size);
    for (size_t i = 0; i < *size; i++)
        bytes[i] = (uint8_t)(digit(text[2 * i]) * 16 + digit(text[2 * i + 1]));
    return bytes;
}

uint64_t number_at(const uint8_t *bytes, size_t count)
{
    uint64_t number = 0;
    for (size_t i = count; i > 0; i--)
        number = number << 8 | bytes[i - 1];
    return number;
}

uint8_t *put_number(uint8_t *bytes, size_t count, uint64_t number)
{
    for (size_t i = 0; i < count; i++)
        bytes[i] = (uint8_t)(number >> 8 * i);
    return bytes + count;
}

int holds(int condition, const char *wrong)
{
    if (!condition)
        printf("%s\n", wrong);
    return condition;
}
