/* How much stack a call takes: each entry runs on a stack of its own that was painted before, and the paint that is left is counted. Reads
 * a configuration, a fence and telemetry frames from standard input; steps all of them, beside eight areas of 16 corners where areas are
 * taken, and each once more on the 64-bit clock. Prints a line for each entry, with the most of all calls. */
#define _XOPEN_SOURCE 700
#include <stdio.h>
#include <string.h>
#include <ucontext.h>

#include "failsafe.h"

#define STACK (1u << 20)
#define PAINT 0xC5

static uint8_t stack[STACK], config[65537], fence[65537], telemetry[65537];
static size_t config_len, fence_len, telemetry_len, areas_len;
static uint8_t state[FAILSAFE_STATE_BYTES], output[FAILSAFE_SIDE_BYTES];
static uint8_t wide_state[FAILSAFE_WIDE_STATE_BYTES], wide_telemetry[FAILSAFE_WIDE_TELEMETRY_BYTES];
static uint8_t area[FAILSAFE_AREA_BYTES(16)], areas[FAILSAFE_AREAS_MOST], edited[FAILSAFE_AREAS_MOST];
static uint32_t answer;

static void nothing(void) { answer = 0; }

static void step(void)
{
    answer = failsafe_step(config, config_len, fence, fence_len, state, sizeof state, telemetry, telemetry_len, output, sizeof output);
}

static void step_side(void)
{
    answer = failsafe_step_side(config, config_len, fence, fence_len, state, sizeof state, telemetry, telemetry_len, output, sizeof output);
}

static void step_areas(void)
{
    answer = failsafe_step_areas(config, config_len, fence, fence_len, state, sizeof state, telemetry, telemetry_len, output, sizeof output,
                                 areas, areas_len);
}

static void step_wide(void)
{
    answer = failsafe_step_areas(config, config_len, fence, fence_len, wide_state, sizeof wide_state, wide_telemetry, sizeof wide_telemetry,
                                 output, sizeof output, areas, areas_len);
}

static void add_area(void) { answer = failsafe_add_area(areas, areas_len, area, sizeof area, edited, sizeof edited); }

static void remove_area(void) { answer = failsafe_remove_area(areas, areas_len, 8, edited, sizeof edited); }

/* The bytes of stack that a call took. */
static size_t used(void (*call)(void))
{
    ucontext_t here, there;
    memset(stack, PAINT, sizeof stack);
    getcontext(&there);
    there.uc_stack.ss_sp = stack;
    there.uc_stack.ss_size = sizeof stack;
    there.uc_link = &here;
    makecontext(&there, call, 0);
    swapcontext(&here, &there);
    size_t left = 0;
    while (left < sizeof stack && stack[left] == PAINT)
        left++;
    return sizeof stack - left;
}

static void put_f32(uint8_t *to, float x) { memcpy(to, &x, sizeof x); }

/* Sixteen corners on a circle far north, by the tangents of half their angles. */
static void area_frame(uint8_t number)
{
    area[0] = (uint8_t)(sizeof area - 2);
    area[2] = 7;
    area[4] = number;
    area[5] = 16;
    for (int i = 0; i < 16; i++) {
        float u = ((float)i + 0.5f) / 16, t = (u - 0.5f) / (2 * u * (1 - u)), by = 1 + t * t;
        put_f32(area + 6 + 8 * i, 300 + 50 * (1 - t * t) / by);
        put_f32(area + 10 + 8 * i, 50 * 2 * t / by);
    }
}

static int frame(uint8_t *bytes, size_t *len)
{
    if (fread(bytes, 1, 2, stdin) != 2)
        return 0;
    size_t rest = bytes[0] + 256u * bytes[1];
    *len = 2 + rest;
    return fread(bytes + 2, 1, rest, stdin) == rest;
}

/* The telemetry as a kind 9: four bytes of 0 behind each instant. */
static void widen_telemetry(void)
{
    static const uint8_t gaps[] = {0, 1, 25, 9, 5, 5, 5, 1, 2, 2, 2};
    size_t from = 4, to = 4;
    memset(wide_telemetry, 0, sizeof wide_telemetry);
    wide_telemetry[0] = sizeof wide_telemetry - 2;
    wide_telemetry[2] = FAILSAFE_KIND_WIDE_TELEMETRY;
    for (size_t i = 0; i < sizeof gaps; i++) {
        memcpy(wide_telemetry + to, telemetry + from, gaps[i] + 4u);
        from += gaps[i] + 4u;
        to += gaps[i] + 8u;
    }
    memcpy(wide_telemetry + to, telemetry + from, telemetry_len - from);
}

/* Puts eight areas in, the eighth last, and counts the stack of it. */
static size_t fill(void)
{
    size_t most = 0;
    for (uint8_t number = 1; number <= 8; number++) {
        area_frame(number);
        size_t took = used(add_area);
        if (answer != 0)
            return 0;
        most = took > most ? took : most;
        areas_len = 2u + edited[0] + 256u * edited[1];
        memcpy(areas, edited, areas_len);
    }
    return most;
}

int main(void)
{
    static void (*const steps[])(void) = {step, step_side, step_areas};
    static const char *const names[] = {"failsafe_step", "failsafe_step_side", "failsafe_step_areas"};
    size_t most[3] = {0}, wide = 0, base = used(nothing), taken = 0;
    if (!frame(config, &config_len) || !frame(fence, &fence_len) || failsafe_fresh(state, sizeof state) != 0 ||
        failsafe_fresh_wide(wide_state, sizeof wide_state) != 0)
        return 1;
    size_t add = fill(), fewer = used(remove_area);
    if (add == 0 || answer != 0)
        return 1;
    while (frame(telemetry, &telemetry_len)) {
        uint8_t before[sizeof state];
        memcpy(before, state, sizeof state);
        for (int i = 0; i < 3; i++) {
            memcpy(state, before, sizeof state);
            size_t took = used(steps[i]);
            if (answer != 0)
                return 1;
            most[i] = took > most[i] ? took : most[i];
        }
        widen_telemetry();
        size_t took = used(step_wide);
        if (answer != 0)
            return 1;
        wide = took > wide ? took : wide;
        taken++;
    }
    for (int i = 0; i < 3; i++)
        printf("%s %zu bytes\n", names[i], most[i] - base);
    printf("any of these on a state of kind 10 %zu bytes\n", wide - base);
    printf("failsafe_add_area %zu bytes\nfailsafe_remove_area %zu bytes\n", add - base, fewer - base);
    return taken == 0;
}
