/* Calls failsafe_whole_energy for each record of standard input: the input's length and the output's (two bytes
 * each, little-endian), then the input. Writes for each the answer (four bytes) and the output slice, which held 0xA5
 * before, with one byte more behind it that the call must not touch.
 * With the word 'time': the time of a call on one input, the least of some rounds. */
#include <stdint.h>
#include <stdio.h>
#include <stdlib.h>
#include <string.h>
#include <time.h>

#include "failsafe.h"

#define MOST 4096

static int read_all(uint8_t *bytes, size_t n) { return fread(bytes, 1, n, stdin) == n; }

static double now(void)
{
    struct timespec t;
    clock_gettime(CLOCK_MONOTONIC, &t);
    return (double)t.tv_sec * 1e9 + (double)t.tv_nsec;
}

/* Rounds of calls on the first record. */
static int time_calls(void)
{
    uint8_t head[4], input[52], output[FAILSAFE_WHOLE_ENERGY_BYTES];
    double best = 1e18;
    if (!read_all(head, 4) || !read_all(input, sizeof input))
        return 1;
    for (int round = 0; round < 50; round++) {
        double start = now();
        for (int i = 0; i < 20000; i++)
            if (failsafe_whole_energy(input, sizeof input, output, sizeof output) != 0)
                return 1;
        double t = (now() - start) / 20000;
        if (t < best)
            best = t;
    }
    printf("%.1f ns a call\n", best);
    return 0;
}

int main(int count, char **words)
{
    static uint8_t output[MOST + 1];
    uint8_t head[4];
    if (count == 2 && strcmp(words[1], "time") == 0)
        return time_calls();
    while (read_all(head, 4)) {
        size_t input_len = head[0] + 256u * head[1], output_len = head[2] + 256u * head[3];
        /* a buffer of its own size, so that a read past its end can be seen by valgrind */
        uint8_t *input = malloc(input_len + 1);
        if (input == NULL || input_len > MOST || output_len > MOST || !read_all(input, input_len))
            return 2;
        memset(output, 0xa5, output_len + 1);
        uint32_t answer = failsafe_whole_energy(input, input_len, output, output_len);
        uint8_t said[4] = {(uint8_t)answer, (uint8_t)(answer >> 8), (uint8_t)(answer >> 16), (uint8_t)(answer >> 24)};
        fwrite(said, 1, 4, stdout);
        fwrite(output, 1, output_len + 1, stdout);
        free(input);
    }
    return 0;
}
