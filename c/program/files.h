/* Whole files. */
#ifndef FILES_H
#define FILES_H

#include <stddef.h>
#include <stdint.h>

/* All bytes of a file, with a 0 behind them, to be freed by the caller; null where it cannot be read, which is told on standard error. */
uint8_t *read_file(const char *name, size_t *size);

/* Writes a file of these bytes; 0 where it cannot be written, which is told on standard error. */
int write_file(const char *name, const uint8_t *bytes, size_t size);

#endif
