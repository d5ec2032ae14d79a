/* Rows of words, docs/LISTS.md: eight hexadecimal digits a word, a space between words, a line end after the last. */
#ifndef REPLAY_WORDS_H
#define REPLAY_WORDS_H
#include <stddef.h>
#include <stdint.h>
#include <stdio.h>

#define MOST_WORDS 8192

struct words {
    uint32_t at[MOST_WORDS];
    size_t count;
};

/* 1 with the next row, 0 at the end, -1 for anything that is not a row. */
int read_words(FILE *from, struct words *row);

void add(struct words *row, uint32_t word);
int same_words(const struct words *a, const struct words *b);
void print_words(const char *what, const struct words *row);

/* Bytes as two words, the higher first: the 64-bit hash FNV-1a. */
void add_digest(struct words *row, const uint8_t *bytes, size_t size);

/* A float that is answered: its bits, and for every NaN 7FC00000. */
uint32_t bits_of(float x);
float float_of(uint32_t bits);

#endif
