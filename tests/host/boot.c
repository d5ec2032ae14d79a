/* What include/failsafe.h says of boot, by its own constants: the default configuration and fence are accepted; a first step with nothing read
 * lands; a step that says 'not armed' is Nominal; a setting that is changed at its place is seen. */
#include <stdio.h>
#include <string.h>

#include "failsafe.h"

static const uint8_t defaults[] = FAILSAFE_DEFAULT_CONFIG, fence[] = FAILSAFE_DEFAULT_FENCE;
static int failed;

static void want(const char *what, uint32_t answer, uint32_t wanted)
{
    if (answer != wanted) {
        printf("%s: %u, and %u is wanted\n", what, (unsigned)answer, (unsigned)wanted);
        failed = 1;
    }
}

/* A telemetry at 0 ms with nothing read, but for `armed` false where that is told. */
static void first_telemetry(uint8_t *frame, int not_armed)
{
    memset(frame, 0, FAILSAFE_TELEMETRY_BYTES);
    frame[0] = FAILSAFE_TELEMETRY_BYTES - 2;
    frame[2] = FAILSAFE_KIND_TELEMETRY;
    frame[FAILSAFE_TELEMETRY_ARMED] = (uint8_t)not_armed;
}

static void first_step(int not_armed, uint8_t action, uint8_t reason, uint8_t requested)
{
    uint8_t state[FAILSAFE_STATE_BYTES], telemetry[FAILSAFE_TELEMETRY_BYTES], shown[FAILSAFE_SIDE_BYTES];
    first_telemetry(telemetry, not_armed);
    want("a fresh state", failsafe_fresh(state, sizeof state), 0);
    want("a first step", failsafe_step_side(defaults, sizeof defaults, fence, sizeof fence, state, sizeof state, telemetry, sizeof telemetry,
                                            shown, sizeof shown), 0);
    want("action", shown[FAILSAFE_DECISION_ACTION], action);
    want("reason", shown[FAILSAFE_DECISION_REASON], reason);
    want("requested", shown[FAILSAFE_DECISION_REQUESTED], requested);
    want("the slot of RcLost", shown[FAILSAFE_DECISION_SLOT(FAILSAFE_REASON_RC_LOST)], !not_armed);
    want("position_valid", shown[FAILSAFE_DECISION_POSITION_VALID], 0);
    want("side", shown[FAILSAFE_DECISION_SIDE], FAILSAFE_SIDE_NONE);
    want("disarm_eligible", shown[FAILSAFE_SIDE_DISARM_ELIGIBLE], 0);
}

/* The default configuration with a byte put in at a setting's place. */
static uint32_t check_with(size_t at, uint8_t byte)
{
    uint8_t config[] = FAILSAFE_DEFAULT_CONFIG;
    config[at] = byte;
    return failsafe_check(config, sizeof config, fence, sizeof fence);
}

int main(void)
{
    want("the defaults", failsafe_check(defaults, sizeof defaults, fence, sizeof fence), FAILSAFE_REFUSAL_NONE);
    want("15 cells", check_with(FAILSAFE_CONFIG_CELL_COUNT, 15), FAILSAFE_REFUSAL_BAD_CELL_COUNT);
    want("rc_required 2", check_with(FAILSAFE_CONFIG_RC_REQUIRED, 2), FAILSAFE_REFUSAL_VALUE);
    want("disarm_hold_ms 656,081,872", check_with(FAILSAFE_CONFIG_DISARM_HOLD_MS + 3, 39), FAILSAFE_REFUSAL_DURATION_OUT_OF_RANGE);
    want("v_cruise below 0", check_with(FAILSAFE_CONFIG_V_CRUISE + 3, 0xc1), FAILSAFE_REFUSAL_NON_POSITIVE_SPEED);
    want("h_rtl below 0", check_with(FAILSAFE_CONFIG_H_RTL + 3, 0xc1), FAILSAFE_REFUSAL_RTL_ALT_OUTSIDE_FENCE);
    first_step(0, FAILSAFE_ACTION_LAND, FAILSAFE_REASON_POSITION_INVALID, FAILSAFE_ACTION_RETURN_TO_LAUNCH);
    first_step(1, FAILSAFE_ACTION_NOMINAL, FAILSAFE_REASON_NONE, FAILSAFE_ACTION_NOMINAL);
    return failed;
}
