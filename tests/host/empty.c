/* Slices of no bytes, with null for a pointer, as include/failsafe.h allows: refused with document 01's number, and
 * nothing is changed. Reads a configuration, a fence and a telemetry frame from standard input. */
#include <stdio.h>
#include <string.h>

#include "failsafe.h"

struct slice {
    uint8_t *bytes;
    size_t len;
};

enum { CONFIG, FENCE, STATE, TELEMETRY, OUTPUT, SLICES };

static uint32_t step(const struct slice *s)
{
    return failsafe_step(s[CONFIG].bytes, s[CONFIG].len, s[FENCE].bytes, s[FENCE].len, s[STATE].bytes, s[STATE].len,
                         s[TELEMETRY].bytes, s[TELEMETRY].len, s[OUTPUT].bytes, s[OUTPUT].len);
}

static uint32_t step_side(const struct slice *s, uint8_t *state, uint8_t *shown)
{
    return failsafe_step_side(s[CONFIG].bytes, s[CONFIG].len, s[FENCE].bytes, s[FENCE].len, state, FAILSAFE_STATE_BYTES,
                              s[TELEMETRY].bytes, s[TELEMETRY].len, shown, FAILSAFE_SIDE_BYTES);
}

static uint32_t step_areas(const struct slice *s, uint8_t *state, uint8_t *shown)
{
    return failsafe_step_areas(s[CONFIG].bytes, s[CONFIG].len, s[FENCE].bytes, s[FENCE].len, state, FAILSAFE_STATE_BYTES,
                               s[TELEMETRY].bytes, s[TELEMETRY].len, shown, FAILSAFE_SIDE_BYTES, NULL, 0);
}

/* No bytes of areas are no area, for a step and for the edits. */
static int no_areas_fail(const struct slice *s)
{
    uint8_t states[2][FAILSAFE_STATE_BYTES], shown[2][FAILSAFE_SIDE_BYTES] = {{0}};
    memcpy(states[0], s[STATE].bytes, sizeof states[0]);
    memcpy(states[1], s[STATE].bytes, sizeof states[1]);
    return step_side(s, states[0], shown[0]) != 0 || step_areas(s, states[1], shown[1]) != 0 || memcmp(states[0], states[1], sizeof states[0]) ||
           memcmp(shown[0], shown[1], sizeof shown[0]) || failsafe_add_area(NULL, 0, NULL, 0, NULL, 0) != 1 ||
           failsafe_remove_area(NULL, 0, 1, NULL, 0) != 31;
}

/* The next frame of standard input. */
static struct slice next_frame(uint8_t *bytes)
{
    struct slice frame = {bytes, 0};
    if (fread(bytes, 1, 2, stdin) == 2) {
        size_t rest = bytes[0] + 256u * bytes[1];
        frame.len = 2 + fread(bytes + 2, 1, rest, stdin);
    }
    return frame;
}

int main(void)
{
    static const uint32_t number[SLICES] = {1, 1, 1, 1, 5};
    static uint8_t config[65537], fence[65537], telemetry[65537];
    uint8_t state[FAILSAFE_STATE_BYTES], output[FAILSAFE_DECISION_BYTES];
    struct slice s[SLICES] = {
        [CONFIG] = next_frame(config),
        [FENCE] = next_frame(fence),
        [STATE] = {state, sizeof state},
        [TELEMETRY] = next_frame(telemetry),
        [OUTPUT] = {output, sizeof output},
    };
    int failed = failsafe_fresh(NULL, 0) != 5 || failsafe_fresh(state, sizeof state) != 0 || step(s) != 0;
    for (int i = 0; i < SLICES; i++) {
        struct slice some[SLICES];
        uint8_t state_before[sizeof state], output_before[sizeof output];
        memcpy(some, s, sizeof s);
        memcpy(state_before, state, sizeof state);
        memcpy(output_before, output, sizeof output);
        some[i].bytes = NULL;
        some[i].len = 0;
        uint32_t answer = step(some);
        if (answer != number[i] || memcmp(state, state_before, sizeof state) || memcmp(output, output_before, sizeof output)) {
            printf("slice %d empty: answered %u\n", i, (unsigned)answer);
            failed = 1;
        }
    }
    if (no_areas_fail(s)) {
        printf("no areas are not taken for none\n");
        failed = 1;
    }
    return failed;
}
