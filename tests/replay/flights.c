/* Flights: failsafe_check and failsafe_fresh at the beginning, then failsafe_step. */
#include "failsafe.h"
#include "frames.h"
#include "lists.h"

/* The flight under way. */
static uint8_t config[CONFIG_FRAME], fence[MOST_FENCE], state[STATE_FRAME];
static size_t fence_size;

static int begin(const uint32_t *args, struct words *answer)
{
    put_config(config, args + 2);
    fence_size = put_fence(fence, args[0], args[1], args + 64);
    add(answer, failsafe_check(config, sizeof config, fence, fence_size));
    return failsafe_fresh(state, sizeof state) == 0;
}

static int step(const uint32_t *args, struct words *answer)
{
    uint8_t telemetry[TELEMETRY_FRAME], decision[DECISION_FRAME];
    put_telemetry(telemetry, args);
    if (failsafe_step(config, sizeof config, fence, fence_size, state, sizeof state, telemetry, sizeof telemetry,
                      decision, sizeof decision))
        return 0;
    add_step(answer, decision, state);
    return 1;
}

int flight_row(const struct words *row, struct words *answer)
{
    size_t count = row->count - 2;
    if (row->count < 2 || row->at[1] != count)
        return 0;
    switch (row->at[0]) {
    case 0x40: return count > 64 && is_polygon(row->at + 66, count - 64, 255) && begin(row->at + 2, answer);
    case 0x41: return count == 23 && step(row->at + 2, answer);
    default: return 0;
    }
}
