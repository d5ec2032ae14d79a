/* The entry failsafe_trial: entry SEED COUNT writes that many frames to standard output. Before that each refusal is asked for, in
 * its order: the number is the header's, and no byte of either buffer has changed. */
#include <stdio.h>
#include <stdlib.h>
#include <string.h>

#include "failsafe.h"

static int failed;

/* A call with these lengths and this last byte. */
static void refused(uint32_t number, size_t generator_len, uint8_t begun, size_t output_len)
{
    uint8_t generator[16], output[128], generator_before[16], output_before[128];
    memset(generator, 7, sizeof generator);
    memset(output, 9, sizeof output);
    generator[FAILSAFE_GENERATOR_BYTES - 1] = begun;
    memcpy(generator_before, generator, sizeof generator);
    memcpy(output_before, output, sizeof output);
    uint32_t answer = failsafe_trial(generator_len ? generator : NULL, generator_len, output_len ? output : NULL, output_len);
    if (answer != number || memcmp(generator, generator_before, sizeof generator) || memcmp(output, output_before, sizeof output)) {
        fprintf(stderr, "generator of %zu bytes, last %u, output of %zu: answered %u\n", generator_len, begun, output_len, (unsigned)answer);
        failed = 1;
    }
}

int main(int argc, char **argv)
{
    uint8_t generator[FAILSAFE_GENERATOR_BYTES] = {0}, output[FAILSAFE_TELEMETRY_BYTES + 3];
    if (argc != 3)
        return 2;
    uint32_t seed = (uint32_t)strtoul(argv[1], NULL, 10);
    refused(1, 0, 0, 106);
    refused(1, 8, 2, 0);
    refused(3, 10, 2, 0);
    refused(4, 9, 2, 0);
    refused(4, 9, 255, 106);
    refused(5, 9, 0, 0);
    refused(5, 9, 1, 105);
    for (int i = 0; i < 4; i++)
        generator[i] = (uint8_t)(seed >> 8 * i);
    for (unsigned long n = strtoul(argv[2], NULL, 10); n > 0; n--) {
        memset(output, 0xa5, sizeof output);
        if (failsafe_trial(generator, sizeof generator, output, sizeof output) != 0 || memcmp(output + FAILSAFE_TELEMETRY_BYTES, "\xa5\xa5\xa5", 3))
            failed = 1;
        fwrite(output, 1, FAILSAFE_TELEMETRY_BYTES, stdout);
    }
    return failed;
}
