/* A host that flies a short flight: takes off, loses its ground station's heartbeat, returns, hears it again, and
 * is disarmed; then a crane goes up and comes down. It prints one line for each step. */
#include <stdio.h>
#include <string.h>

#include "failsafe.h"

static void put_u16(uint8_t *at, uint16_t n)
{
    at[0] = (uint8_t)(n & 0xff);
    at[1] = (uint8_t)(n >> 8);
}

static void put_u32(uint8_t *at, uint32_t n)
{
    put_u16(at, (uint16_t)(n & 0xffff));
    put_u16(at + 2, (uint16_t)(n >> 16));
}

static void put_f32(uint8_t *at, float x)
{
    uint32_t n;
    memcpy(&n, &x, sizeof n);
    put_u32(at, n);
}

/* A frame of zeros, but for its head. */
static void put_head(uint8_t *frame, uint16_t kind, size_t frame_bytes)
{
    memset(frame, 0, frame_bytes);
    put_u16(frame, (uint16_t)(frame_bytes - 2));
    put_u16(frame + 2, kind);
}

/* A crane's yard, 60 m by 60 m, from 60 m north on. */
static void area_frame(uint8_t *frame, uint8_t number)
{
    static const float corners[4][2] = {{60, -30}, {60, 30}, {120, 30}, {120, -30}};
    put_head(frame, FAILSAFE_KIND_AREA, FAILSAFE_AREA_BYTES(4));
    frame[4] = number;
    frame[5] = 4;
    for (int i = 0; i < 4; i++) {
        put_f32(frame + 6 + 8 * i, corners[i][0]);
        put_f32(frame + 10 + 8 * i, corners[i][1]);
    }
}

/* The bytes of a frame. */
static size_t frame_bytes(const uint8_t *frame) { return 2u + frame[0] + 256u * frame[1]; }

/* The flag of a reading that is present, and its stamp behind it. */
static void put_stamp(uint8_t *at, uint32_t stamp)
{
    at[0] = 1;
    put_u32(at + 1, stamp);
}

/* A GPS reading: a fix in three dimensions, 12 satellites, hdop 1. */
static void put_gps(uint8_t *frame, uint32_t now)
{
    put_stamp(frame + FAILSAFE_TELEMETRY_GPS, now);
    frame[FAILSAFE_TELEMETRY_GPS_FIX] = FAILSAFE_FIX_FIX3D;
    frame[FAILSAFE_TELEMETRY_GPS_SATS] = 1;
    frame[FAILSAFE_TELEMETRY_GPS_SATS_VALUE] = 12;
    frame[FAILSAFE_TELEMETRY_GPS_HDOP] = 1;
    put_f32(frame + FAILSAFE_TELEMETRY_GPS_HDOP_VALUE, 1);
}

/* All is well 50 m above a point so many metres north, but for the heartbeat and the armed reading as told. */
static void telemetry_frame(uint8_t *frame, uint32_t now, float north, uint32_t heartbeat, int armed)
{
    static const size_t stamped[] = {
        FAILSAFE_TELEMETRY_POSITION, FAILSAFE_TELEMETRY_VOLTAGE_V, FAILSAFE_TELEMETRY_PERCENT, FAILSAFE_TELEMETRY_REMAINING_WH,
        FAILSAFE_TELEMETRY_ARMED, FAILSAFE_TELEMETRY_LANDED, FAILSAFE_TELEMETRY_RC_OK, FAILSAFE_TELEMETRY_EKF_OK};
    put_head(frame, FAILSAFE_KIND_TELEMETRY, FAILSAFE_TELEMETRY_BYTES);
    put_u32(frame + FAILSAFE_TELEMETRY_NOW_MS, now);
    for (size_t i = 0; i < sizeof stamped / sizeof *stamped; i++)
        put_stamp(frame + stamped[i], now);
    put_stamp(frame + FAILSAFE_TELEMETRY_GCS_HEARTBEAT_MS, heartbeat);
    put_gps(frame, now);
    put_f32(frame + FAILSAFE_TELEMETRY_POSITION_POS_NORTH, north);
    put_f32(frame + FAILSAFE_TELEMETRY_POSITION_POS_DOWN, -50);
    put_f32(frame + FAILSAFE_TELEMETRY_VOLTAGE_V_VALUE, 16);
    put_f32(frame + FAILSAFE_TELEMETRY_PERCENT_VALUE, 80);
    put_f32(frame + FAILSAFE_TELEMETRY_REMAINING_WH_VALUE, 32);
    frame[FAILSAFE_TELEMETRY_ARMED_VALUE] = (uint8_t)armed;
    frame[FAILSAFE_TELEMETRY_LANDED_VALUE] = FAILSAFE_LANDED_IN_AIR;
    frame[FAILSAFE_TELEMETRY_RC_OK_VALUE] = 1;
    frame[FAILSAFE_TELEMETRY_EKF_OK_VALUE] = 1;
}

static const char *const actions[] = {"Nominal", "Warn", "Hold", "ReturnToLaunch", "Land"};
static const char *const reasons[] = {
    "None", "ClockFault", "InvalidInput", "StaleBattery", "GcsLinkLost", "RcLost", "GpsDegraded", "GpsLost",
    "EkfUnhealthy", "PositionInvalid", "FenceApproach", "FenceBreach", "AltitudeMax", "AltitudeMin",
    "BatteryWarn", "BatteryLow", "BatteryCritical", "EnergyRtlMarginal", "EnergyRtlInfeasible"};

/* A step 55 m north of home, beside the areas of a frame. */
static uint32_t step_beside(const uint8_t *config, const uint8_t *fence, uint8_t *state, uint32_t now, const uint8_t *areas)
{
    uint8_t telemetry[FAILSAFE_TELEMETRY_BYTES], shown[FAILSAFE_SIDE_BYTES];
    telemetry_frame(telemetry, now, 55, now, 1);
    uint32_t refused = failsafe_step_areas(config, FAILSAFE_CONFIG_BYTES, fence, FAILSAFE_FENCE_BYTES(4), state, FAILSAFE_STATE_BYTES,
                                           telemetry, sizeof telemetry, shown, sizeof shown, areas, frame_bytes(areas));
    if (refused == 0)
        printf("%6u %s, %s\n", (unsigned)now, actions[shown[FAILSAFE_DECISION_ACTION]],
               shown[FAILSAFE_DECISION_SIDE] == FAILSAFE_SIDE_AREA ? "an area is nearest" : "the fence is nearest");
    return refused;
}

int main(void)
{
    static const uint8_t config[] = FAILSAFE_DEFAULT_CONFIG, fence[] = FAILSAFE_DEFAULT_FENCE;
    uint8_t state[FAILSAFE_STATE_BYTES], telemetry[FAILSAFE_TELEMETRY_BYTES], output[FAILSAFE_DECISION_BYTES];
    uint8_t shown[FAILSAFE_SIDE_BYTES];
    uint32_t refused;

    /* at boot: is this configuration and fence accepted? then a fresh state */
    refused = failsafe_check(config, sizeof config, fence, sizeof fence);
    if (refused == 0)
        refused = failsafe_fresh(state, sizeof state);
    if (refused != 0) {
        printf("not ready to fly: %u\n", (unsigned)refused);
        return 1;
    }
    for (uint32_t now = 0; now <= 40000; now += 1000) {
        /* no heartbeat from 3 s to 22 s; disarmed at the end */
        uint32_t heartbeat = now > 3000 && now < 22000 ? 3000 : now;
        telemetry_frame(telemetry, now, (float)now / 1000.0f, heartbeat, now < 40000);
        refused = failsafe_step(config, sizeof config, fence, sizeof fence, state, sizeof state,
                                telemetry, sizeof telemetry, output, sizeof output);
        if (refused != 0) {
            printf("%6u refused: %u\n", (unsigned)now, (unsigned)refused);
            return 1;
        }
        printf("%6u %s, reason %s, requested %s\n", (unsigned)now, actions[output[FAILSAFE_DECISION_ACTION]],
               reasons[output[FAILSAFE_DECISION_REASON]], actions[output[FAILSAFE_DECISION_REQUESTED]]);
    }

    /* a step that is refused leaves the state as it was */
    telemetry[0] ^= 1;
    refused = failsafe_step(config, sizeof config, fence, sizeof fence, state, sizeof state,
                            telemetry, sizeof telemetry, output, sizeof output);
    printf("damaged telemetry: refused with %u\n", (unsigned)refused);

    /* which side of the fence is nearest */
    telemetry_frame(telemetry, 41000, 40, 41000, 1);
    refused = failsafe_step_side(config, sizeof config, fence, sizeof fence, state, sizeof state,
                                 telemetry, sizeof telemetry, shown, sizeof shown);
    if (refused != 0) {
        printf("refused: %u\n", (unsigned)refused);
        return 1;
    }
    printf("%6u %s, nearest side %u\n", 41000u, actions[shown[FAILSAFE_DECISION_ACTION]], shown[FAILSAFE_DECISION_SIDE]);

    /* a crane goes up, and comes down again: the host keeps the areas' frame */
    uint8_t area[FAILSAFE_AREA_BYTES(4)], areas[FAILSAFE_AREAS_MOST], fewer[FAILSAFE_AREAS_MOST];
    area_frame(area, 7);
    refused = failsafe_add_area(NULL, 0, area, sizeof area, areas, sizeof areas);
    if (refused == 0)
        refused = step_beside(config, fence, state, 42000, areas);
    if (refused == 0)
        refused = failsafe_remove_area(areas, frame_bytes(areas), 7, fewer, sizeof fewer);
    if (refused == 0)
        refused = step_beside(config, fence, state, 43000, fewer);
    if (refused != 0) {
        printf("areas refused: %u\n", (unsigned)refused);
        return 1;
    }
    return 0;
}
