/* Pairs of flights that differ in rc_ok alone, through the step entries: outputs byte for byte, states but for the RC clear timer.
 *   pairs FLIGHTS SEED            rc_required false, the same calls declined: nothing may differ
 *   pairs FLIGHTS SEED required   rc_required true
 *   pairs FLIGHTS SEED apart      rc_ok's flag is 2 in some calls of one flight alone, so that it is declined there
 *   pairs FLIGHTS SEED write DIR  the same flights without declined calls as two streams each for `decide`: DIR/N.first, DIR/N.second
 * Exit status 1: something differs. */
#include <stdio.h>
#include <stdlib.h>
#include <string.h>

#include "failsafe.h"

enum { CALLS = 200, TIMER = 11, TIMER_END = 16, RC = FAILSAFE_TELEMETRY_RC_OK, RC_END = FAILSAFE_TELEMETRY_EKF_OK, ROOM = 100 };

static uint64_t seed;

/* splitmix64 */
static uint32_t draw(uint32_t below)
{
    uint64_t z = seed += 0x9e3779b97f4a7c15u;
    z = (z ^ (z >> 30)) * 0xbf58476d1ce4e5b9u;
    z = (z ^ (z >> 27)) * 0x94d049bb133111ebu;
    return (uint32_t)((z ^ (z >> 31)) >> 32) % below;
}

static int one_in(uint32_t n) { return draw(n) == 0; }

static void put_u16(uint8_t *at, uint32_t n)
{
    at[0] = (uint8_t)n;
    at[1] = (uint8_t)(n >> 8);
}

static void put_u32(uint8_t *at, uint32_t n)
{
    put_u16(at, n);
    put_u16(at + 2, n >> 16);
}

static void put_f32(uint8_t *at, float x)
{
    uint32_t n;
    memcpy(&n, &x, sizeof n);
    put_u32(at, n);
}

/* The flag and the stamp of a reading that is present. */
static int reading(uint8_t *at, uint32_t now)
{
    if (one_in(60))
        return 0;
    at[0] = 1;
    put_u32(at + 1, one_in(40) ? now - draw(4000) : now);
    return 1;
}

/* The receiver chatters: rc_ok absent, or true or false with a stamp that is fresh, old or ahead. */
static void put_rc(uint8_t *frame, uint32_t now)
{
    memset(frame + RC, 0, RC_END - RC);
    if (one_in(4))
        return;
    frame[RC] = 1;
    put_u32(frame + RC + 1, now - draw(2000) + (one_in(10) ? 500 : 0));
    frame[RC_END - 1] = (uint8_t)draw(2);
}

static void put_telemetry(uint8_t *frame, uint32_t now, float north, float east, float up, float charge, int trouble)
{
    memset(frame, 0, FAILSAFE_TELEMETRY_BYTES);
    put_u16(frame, FAILSAFE_TELEMETRY_BYTES - 2);
    put_u16(frame + 2, FAILSAFE_KIND_TELEMETRY);
    put_u32(frame + FAILSAFE_TELEMETRY_NOW_MS, now);
    if (reading(frame + FAILSAFE_TELEMETRY_POSITION, now)) {
        put_f32(frame + FAILSAFE_TELEMETRY_POSITION_POS_NORTH, one_in(100) ? 20000 : north);
        put_f32(frame + FAILSAFE_TELEMETRY_POSITION_POS_EAST, east);
        put_f32(frame + FAILSAFE_TELEMETRY_POSITION_POS_DOWN, -up);
    }
    if (reading(frame + FAILSAFE_TELEMETRY_GPS, now)) {
        frame[FAILSAFE_TELEMETRY_GPS_FIX] = (uint8_t)(trouble == 1 ? draw(3) : FAILSAFE_FIX_FIX3D);
        frame[FAILSAFE_TELEMETRY_GPS_SATS] = 1;
        frame[FAILSAFE_TELEMETRY_GPS_SATS_VALUE] = (uint8_t)(trouble == 1 ? draw(16) : 12);
        frame[FAILSAFE_TELEMETRY_GPS_HDOP] = 1;
        put_f32(frame + FAILSAFE_TELEMETRY_GPS_HDOP_VALUE, 1);
    }
    if (reading(frame + FAILSAFE_TELEMETRY_VOLTAGE_V, now))
        put_f32(frame + FAILSAFE_TELEMETRY_VOLTAGE_V_VALUE, 16);
    if (reading(frame + FAILSAFE_TELEMETRY_PERCENT, now))
        put_f32(frame + FAILSAFE_TELEMETRY_PERCENT_VALUE, charge);
    if (reading(frame + FAILSAFE_TELEMETRY_REMAINING_WH, now))
        put_f32(frame + FAILSAFE_TELEMETRY_REMAINING_WH_VALUE, charge * 0.4f);
    if (reading(frame + FAILSAFE_TELEMETRY_GCS_HEARTBEAT_MS, now) && trouble == 2)
        put_u32(frame + FAILSAFE_TELEMETRY_GCS_HEARTBEAT_MS_VALUE, now - draw(20000));
    if (reading(frame + FAILSAFE_TELEMETRY_ARMED, now))
        frame[FAILSAFE_TELEMETRY_ARMED_VALUE] = (uint8_t)!one_in(60);
    if (reading(frame + FAILSAFE_TELEMETRY_LANDED, now))
        frame[FAILSAFE_TELEMETRY_LANDED_VALUE] = (uint8_t)(one_in(4) ? draw(5) : FAILSAFE_LANDED_IN_AIR);
    if (reading(frame + FAILSAFE_TELEMETRY_EKF_OK, now))
        frame[FAILSAFE_TELEMETRY_EKF_OK_VALUE] = (uint8_t)!(trouble == 3 && one_in(3));
}

/* A keep-out area 60 m north of home, as a frame of kind 13. */
static size_t put_areas(uint8_t *areas)
{
    static const float corners[4][2] = {{60, -30}, {60, 30}, {120, 30}, {120, -30}};
    uint8_t area[FAILSAFE_AREA_BYTES(4)];
    memset(area, 0, sizeof area);
    put_u16(area, sizeof area - 2);
    put_u16(area + 2, FAILSAFE_KIND_AREA);
    area[4] = 1;
    area[5] = 4;
    for (int i = 0; i < 4; i++) {
        put_f32(area + 6 + 8 * i, corners[i][0]);
        put_f32(area + 10 + 8 * i, corners[i][1]);
    }
    if (failsafe_add_area(NULL, 0, area, sizeof area, areas, FAILSAFE_AREAS_MOST) != 0)
        exit(2);
    return 2u + areas[0] + 256u * areas[1];
}

static FILE *stream(const char *folder, uint32_t flight, const char *which)
{
    char path[4096];
    snprintf(path, sizeof path, "%s/%u.%s", folder, (unsigned)flight, which);
    FILE *f = fopen(path, "wb");
    if (f == NULL) {
        perror(path);
        exit(2);
    }
    return f;
}

static unsigned long calls, steps, both_declined, other_number, timers, outputs_differ, states_differ, apart;
static unsigned long shown[5], of_kind[2], of_fence[2], beside_areas;

static void fly(uint32_t flight, int required, int damage_one, const char *folder)
{
    static uint8_t config[] = FAILSAFE_DEFAULT_CONFIG, fence[] = FAILSAFE_DEFAULT_FENCE;
    uint8_t areas[FAILSAFE_AREAS_MOST], state[2][FAILSAFE_RAISED_STATE_BYTES], telemetry[2][FAILSAFE_TELEMETRY_BYTES + 1], output[2][ROOM];
    size_t areas_bytes = put_areas(areas);
    int keeps = (int)draw(2), once_round = (int)draw(2), declining = folder == NULL;
    size_t state_bytes = keeps ? FAILSAFE_RAISED_STATE_BYTES : FAILSAFE_STATE_BYTES;
    uint32_t now = one_in(4) ? 0xffff0000u : draw(100000);
    float north = 0, east = 0, up = 30, charge = 60 + (float)draw(40);
    FILE *to[2] = {NULL, NULL};

    config[2] = keeps ? FAILSAFE_KIND_CONFIG_KEEPING : FAILSAFE_KIND_CONFIG;
    config[FAILSAFE_CONFIG_RC_REQUIRED] = (uint8_t)required;
    fence[2] = once_round ? FAILSAFE_KIND_FENCE_ONCE_ROUND : FAILSAFE_KIND_FENCE;
    if (failsafe_check(config, sizeof config, fence, sizeof fence) != 0)
        exit(2);
    for (int k = 0; k < 2; k++) {
        memset(state[k], 7, sizeof state[k]);
        if ((keeps ? failsafe_fresh_raised(state[k], sizeof state[k]) : failsafe_fresh(state[k], sizeof state[k])) != 0)
            exit(2);
        if (folder != NULL) {
            to[k] = stream(folder, flight, k == 0 ? "first" : "second");
            fwrite(config, 1, sizeof config, to[k]);
            fwrite(fence, 1, sizeof fence, to[k]);
        }
    }
    int trouble = 0, held = 0;
    for (int call = 0; call < CALLS; call++) {
        if (one_in(15))
            trouble = one_in(2) ? 0 : 1 + (int)draw(4);
        now = one_in(50) ? now - draw(3000) : now + draw(400);
        north += (float)draw(9) - 3.5f;
        east += (float)draw(9) - 4;
        up = one_in(40) ? (float)draw(140) : up + (30 - up) / 4;
        charge -= trouble == 4 ? 0.2f : 0.02f;
        put_telemetry(telemetry[0], now, north, east, up, charge < 0 ? 0 : charge, trouble);
        memcpy(telemetry[1], telemetry[0], sizeof telemetry[0]);
        for (int k = 0; k < 2; k++)
            put_rc(telemetry[k], now);

        int with_areas = one_in(3), with_side = with_areas || one_in(2), fault = declining && one_in(10) ? 1 + (int)draw(6) : 0;
        if (folder != NULL) {
            if (with_areas != held) {
                static const uint8_t none[] = {3, 0, FAILSAFE_KIND_AREAS, 0, 0};
                for (int k = 0; k < 2; k++)
                    fwrite(with_areas ? areas : none, 1, with_areas ? areas_bytes : sizeof none, to[k]);
                held = with_areas;
            }
            for (int k = 0; k < 2; k++)
                fwrite(telemetry[k], 1, FAILSAFE_TELEMETRY_BYTES, to[k]);
            calls++;
            continue;
        }

        /* declined in both: by another kind of frame, a cut, a short output, a bad configuration, bad areas; rc_ok's bytes are then any */
        size_t telemetry_bytes = FAILSAFE_TELEMETRY_BYTES, output_bytes = ROOM - (size_t)draw(4);
        uint8_t kept_config = config[FAILSAFE_CONFIG_CELL_COUNT], kept_areas = areas[4];
        if (fault == 1)
            telemetry[0][2] = telemetry[1][2] = FAILSAFE_KIND_STATE;
        else if (fault == 2)
            telemetry_bytes = draw(FAILSAFE_TELEMETRY_BYTES);
        else if (fault == 3)
            output_bytes = draw(FAILSAFE_DECISION_BYTES);
        else if (fault == 4)
            config[FAILSAFE_CONFIG_CELL_COUNT] = 0;
        else if (fault == 5 && with_areas)
            areas[4] = 9;
        else if (fault == 6)
            telemetry_bytes = FAILSAFE_TELEMETRY_BYTES + 1;
        else
            fault = 0;
        if (fault != 0)
            for (int k = 0; k < 2; k++)
                for (int i = RC; i < RC_END; i++)
                    telemetry[k][i] = (uint8_t)(one_in(2) ? draw(256) : draw(3));
        if (damage_one && one_in(50))
            telemetry[0][RC] = 2;

        uint32_t number[2];
        for (int k = 0; k < 2; k++) {
            memset(output[k], 0xa5, sizeof output[k]);
            if (with_areas)
                number[k] = failsafe_step_areas(config, sizeof config, fence, sizeof fence, state[k], state_bytes, telemetry[k], telemetry_bytes,
                                                output[k], output_bytes, areas, areas_bytes);
            else if (with_side)
                number[k] = failsafe_step_side(config, sizeof config, fence, sizeof fence, state[k], state_bytes, telemetry[k], telemetry_bytes,
                                               output[k], output_bytes);
            else
                number[k] = failsafe_step(config, sizeof config, fence, sizeof fence, state[k], state_bytes, telemetry[k], telemetry_bytes,
                                          output[k], output_bytes);
        }
        config[FAILSAFE_CONFIG_CELL_COUNT] = kept_config;
        areas[4] = kept_areas;

        calls++;
        of_kind[keeps]++;
        of_fence[once_round]++;
        beside_areas += (unsigned long)with_areas;
        apart += (number[0] == 0) != (number[1] == 0);
        if (number[0] == 0 && number[1] == 0) {
            steps++;
            shown[output[0][FAILSAFE_DECISION_ACTION]]++;
        } else if (number[0] != 0 && number[1] != 0) {
            both_declined++;
            other_number += number[0] != number[1];
        }
        outputs_differ += memcmp(output[0], output[1], ROOM) != 0;
        states_differ += memcmp(state[0], state[1], TIMER) != 0
                         || memcmp(state[0] + TIMER_END, state[1] + TIMER_END, sizeof state[0] - TIMER_END) != 0;
        timers += memcmp(state[0] + TIMER, state[1] + TIMER, TIMER_END - TIMER) != 0;
    }
    for (int k = 0; k < 2; k++)
        if (to[k] != NULL)
            fclose(to[k]);
}

int main(int argc, char **argv)
{
    if (argc < 3)
        return 2;
    uint32_t flights = (uint32_t)strtoul(argv[1], NULL, 10);
    const char *how = argc > 3 ? argv[3] : "";
    seed = strtoul(argv[2], NULL, 10);
    for (uint32_t i = 0; i < flights; i++)
        fly(i, strcmp(how, "required") == 0, strcmp(how, "apart") == 0, strcmp(how, "write") == 0 && argc > 4 ? argv[4] : NULL);
    if (strcmp(how, "write") == 0) {
        printf("%lu telemetries in %u pairs of streams\n", calls, (unsigned)flights);
        return 0;
    }
    printf("%lu calls compared, %lu of them steps in both flights (Nominal %lu, Warn %lu, Hold %lu, ReturnToLaunch %lu, Land %lu), %lu declined in both"
           " (%lu with another number), %lu in one alone\n",
           calls, steps, shown[0], shown[1], shown[2], shown[3], shown[4], both_declined, other_number, apart);
    printf("configurations of kind 1: %lu, of kind 11: %lu; fences of kind 2: %lu, of kind 8: %lu; beside areas: %lu\n", of_kind[0], of_kind[1], of_fence[0],
           of_fence[1], beside_areas);
    printf("%lu states differ in the RC clear timer, %lu elsewhere; %lu outputs differ\n", timers, states_differ, outputs_differ);
    if (outputs_differ != 0 || states_differ != 0 || apart != 0)
        return 1;
    if (timers == 0 || both_declined == 0 || other_number == 0 || !of_kind[0] || !of_kind[1] || !of_fence[0] || !of_fence[1]) {
        printf("the flights tried too little\n");
        return 2;
    }
    return 0;
}
