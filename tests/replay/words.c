#include "words.h"

#include <string.h>

static int digit(int c)
{
    if (c >= '0' && c <= '9')
        return c - '0';
    if (c >= 'A' && c <= 'F')
        return c - 'A' + 10;
    return -1;
}

/* One word and the byte after it, which is handed back; -1 for anything else. */
static int read_word(FILE *from, int first, uint32_t *word)
{
    int c = first;
    *word = 0;
    for (int k = 0; k < 8; k++) {
        if (digit(c) < 0)
            return -1;
        *word = *word << 4 | (uint32_t)digit(c);
        c = getc(from);
    }
    return c;
}

int read_words(FILE *from, struct words *row)
{
    int c = getc(from);
    row->count = 0;
    if (c == EOF)
        return 0;
    for (;;) {
        uint32_t word;
        int end = read_word(from, c, &word);
        if (row->count == MOST_WORDS)
            return -1;
        row->at[row->count++] = word;
        if (end == '\n')
            return 1;
        if (end != ' ')
            return -1;
        c = getc(from);
    }
}

void add(struct words *row, uint32_t word)
{
    if (row->count < MOST_WORDS)
        row->at[row->count++] = word;
}

int same_words(const struct words *a, const struct words *b)
{
    return a->count == b->count && memcmp(a->at, b->at, a->count * sizeof a->at[0]) == 0;
}

void print_words(const char *what, const struct words *row)
{
    printf("  %s:", what);
    for (size_t k = 0; k < row->count; k++)
        printf(" %08X", row->at[k]);
    putchar('\n');
}

void add_digest(struct words *row, const uint8_t *bytes, size_t size)
{
    uint64_t hash = 0xCBF29CE484222325;
    for (size_t k = 0; k < size; k++)
        hash = (hash ^ bytes[k]) * 0x100000001B3;
    add(row, (uint32_t)(hash >> 32));
    add(row, (uint32_t)hash);
}

uint32_t bits_of(float x)
{
    uint32_t bits;
    memcpy(&bits, &x, sizeof bits);
    return x == x ? bits : 0x7FC00000;
}

float float_of(uint32_t bits)
{
    float x;
    memcpy(&x, &bits, sizeof x);
    return x;
}
