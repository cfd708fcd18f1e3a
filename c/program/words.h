/* Refusals and steps in words. */
#ifndef WORDS_H
#define WORDS_H

#include <stddef.h>
#include <stdint.h>
#include <stdio.h>

#include "zulqenat.h"

/* What the number of a refusal means. */
const char *refusal_meaning(uint32_t number);

/* A step's op and fields in words, without a line end. Any eight bytes are a step here. */
void print_step(FILE *out, const uint8_t *step);

/* A refusal of a book: the file's name, number, place and meaning, and the step or routine at the place, in words, with what is wrong. */
void print_book_refusal(FILE *out, const char *file, const uint8_t *book, size_t size, struct zulqenat_verdict verdict);

#endif
