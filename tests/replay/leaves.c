/* Leaves: the entries of crate leaves_c, those of float32_c, and failsafe_check and failsafe_inside. */
#include <stdbool.h>
#include <string.h>

#include "failsafe.h"
#include "frames.h"
#include "lists.h"

uint32_t leaf_age(uint32_t now, uint32_t then);
bool leaf_fresh(uint32_t now, uint32_t stamp, uint32_t limit);
size_t leaf_reason_index(size_t i);
uint8_t leaf_reason_priority(size_t i);
uint8_t leaf_action_rank(uint8_t n);
uint8_t leaf_requested_rank(const uint8_t *frame, size_t frame_len);
size_t leaf_requested_reason(const uint8_t *frame, size_t frame_len);
uint32_t leaf_filed(const uint8_t *frame, size_t frame_len, size_t reason, uint8_t action, uint8_t *to, size_t to_len);
uint32_t leaf_cleared(const uint8_t *frame, size_t frame_len, size_t reason, uint8_t *to, size_t to_len);
float leaf_altitude(float n, float e, float d);
float leaf_home_distance(float n, float e, float d);
uint16_t leaf_polygon(const uint8_t *frame, size_t frame_len, size_t count);
size_t leaf_fence_len(const uint8_t *frame, size_t frame_len);
float leaf_fence_distance(const uint8_t *frame, size_t frame_len, float n, float e);
bool leaf_fence_contains(const uint8_t *frame, size_t frame_len, float n, float e);
uint32_t leaf_fence_held(const uint8_t *frame, size_t frame_len, uint8_t *to, size_t to_len);
uint32_t leaf_default_fence(uint8_t *to, size_t to_len);
size_t leaf_default_fence_len(void);
uint32_t leaf_default_config(uint8_t *to, size_t to_len);
uint32_t leaf_energy(const uint8_t *config, size_t config_len, float n, float e, float d, bool known, float remaining,
                     uint8_t *to, size_t to_len);
bool leaf_gate_eligible(bool held, uint32_t since, uint32_t now, bool armed_known, uint32_t armed_ms, bool armed,
                        bool landed_known, uint32_t landed_ms, uint8_t landed, uint32_t fresh, uint32_t hold,
                        uint8_t requested, bool fault);
uint64_t leaf_gate_since(bool held, uint32_t since, uint32_t now, bool armed_known, uint32_t armed_ms, bool armed,
                         bool landed_known, uint32_t landed_ms, uint8_t landed, uint32_t fresh, uint32_t hold,
                         uint8_t requested, bool fault);
uint64_t leaf_gate_reset(bool held, uint32_t since);
float float32_sqrtf(float x);
float float32_fabsf(float x);
float float32_fmaxf(float x, float y);

static const uint32_t zero = 0, one = 0x3F800000;

static void age(const uint32_t *args, struct words *answer)
{
    uint32_t ms = leaf_age(args[0], args[1]);
    add(answer, ms != UINT32_MAX);
    add(answer, ms != UINT32_MAX ? ms : 0);
}

static void reason(const uint32_t *args, struct words *answer)
{
    size_t index = leaf_reason_index(args[0]);
    add(answer, index < 19);
    add(answer, index < 19 ? (uint32_t)index : 0);
    add(answer, leaf_reason_priority(args[0]));
}

static void add_requested(const uint8_t *frame, struct words *answer)
{
    add(answer, leaf_requested_rank(frame, DECISION_FRAME));
    add(answer, (uint32_t)leaf_requested_reason(frame, DECISION_FRAME));
}

static void requested(const uint32_t *args, struct words *answer)
{
    uint8_t frame[DECISION_FRAME];
    put_requests(frame, args);
    add_requested(frame, answer);
}

/* Each request goes into the frame that the last one left. */
static int filed(const uint32_t *args, size_t count, struct words *answer)
{
    uint8_t frame[DECISION_FRAME], next[DECISION_FRAME];
    static const uint32_t none[19];
    put_requests(frame, none);
    for (size_t k = 0; k < count; k++) {
        size_t why = args[k] >> 8 & 0xFF;
        uint32_t refused = args[k] >> 16 ? leaf_filed(frame, sizeof frame, why, (uint8_t)args[k], next, sizeof next)
                                         : leaf_cleared(frame, sizeof frame, why, next, sizeof next);
        if (refused)
            return 0;
        memcpy(frame, next, sizeof frame);
    }
    add_requested(frame, answer);
    for (size_t slot = 0; slot < 19; slot++)
        add(answer, request_at(frame, slot));
    return 1;
}

static void vec3(const uint32_t *args, struct words *answer)
{
    float n = float_of(args[0]), e = float_of(args[1]), d = float_of(args[2]);
    add(answer, bits_of(leaf_altitude(n, e, d)));
    add(answer, bits_of(leaf_home_distance(n, e, d)));
}

static void libm(const uint32_t *args, struct words *answer)
{
    float x = float_of(args[0]), y = float_of(args[1]);
    add(answer, bits_of(float32_fabsf(x)));
    add(answer, bits_of(float32_fmaxf(x, y)));
    add(answer, bits_of(float32_sqrtf(x)));
}

/* The count of corners and all sixteen places. */
static void add_places(const uint8_t *places, size_t count, struct words *answer)
{
    add(answer, (uint32_t)count);
    for (size_t k = 0; k < 32; k++)
        add(answer, word_at(places + 13 + 4 * k));
}

static void add_altitudes(const uint8_t *places, struct words *answer)
{
    add(answer, word_at(places + 9));
    add(answer, word_at(places + 5));
}

/* A count above 255 is in no frame: then the frame has the first sixteen corners, and the constructor is told the count. */
static int polygon(const uint32_t *args, struct words *answer)
{
    uint8_t frame[MOST_FENCE], places[PLACES_FRAME];
    uint32_t capped[33];
    memcpy(capped, args, sizeof capped);
    if (args[0] > 255)
        capped[0] = 16;
    size_t size = put_fence(frame, zero, one, capped);
    uint32_t refused = leaf_polygon(frame, size, args[0]);
    add(answer, refused);
    if (args[0] <= 255 && leaf_fence_held(frame, size, places, sizeof places) != refused)
        return 0;
    if (!refused)
        add_places(places, leaf_fence_len(frame, size), answer);
    return 1;
}

static void fence(const uint32_t *args, struct words *answer)
{
    uint8_t frame[MOST_FENCE], places[PLACES_FRAME];
    size_t size = put_fence(frame, args[0], args[1], args + 2);
    uint32_t refused = leaf_fence_held(frame, size, places, sizeof places);
    add(answer, refused);
    if (!refused) {
        add_places(places, leaf_fence_len(frame, size), answer);
        add_altitudes(places, answer);
    }
}

/* What failsafe_inside says of the point; 2 where it refuses. */
static uint32_t inside(const uint8_t *frame, size_t size, const uint32_t *point)
{
    uint8_t bytes[8], verdict[2];
    for (size_t k = 0; k < 8; k++)
        bytes[k] = (uint8_t)(point[k / 4] >> 8 * (k % 4));
    return failsafe_inside(frame, size, bytes, sizeof bytes, verdict, sizeof verdict) ? 2 : verdict[0];
}

static int distance(const uint32_t *args, struct words *answer)
{
    uint8_t frame[MOST_FENCE], places[PLACES_FRAME];
    float n = float_of(args[0]), e = float_of(args[1]);
    size_t size = put_fence(frame, zero, one, args + 2);
    uint32_t refused = leaf_fence_held(frame, size, places, sizeof places);
    add(answer, refused);
    if (refused)
        return 1;
    uint32_t within = leaf_fence_contains(frame, size, n, e);
    add(answer, bits_of(leaf_fence_distance(frame, size, n, e)));
    add(answer, within);
    return inside(frame, size, args) == within;
}

static int defaults(struct words *answer)
{
    uint8_t frame[CONFIG_FRAME];
    if (leaf_default_config(frame, sizeof frame))
        return 0;
    add(answer, frame[4]);
    add(answer, word_at(frame + 5));
    add(answer, frame[9]);
    for (size_t k = 0; k < CONFIG_WORDS - 3; k++)
        add(answer, word_at(frame + 10 + 4 * k));
    return 1;
}

static void default_fence(struct words *answer)
{
    uint8_t places[PLACES_FRAME];
    add(answer, leaf_default_fence(places, sizeof places));
    add_places(places, leaf_default_fence_len(), answer);
    add_altitudes(places, answer);
}

static void validated(const uint32_t *args, struct words *answer)
{
    uint8_t config[CONFIG_FRAME], frame[MOST_FENCE];
    put_config(config, args + 2);
    size_t size = put_fence(frame, args[0], args[1], args + 64);
    add(answer, failsafe_check(config, sizeof config, frame, size));
}

/* The default Config, with its last ten fields from the row; the estimate comes in a Decision. */
static int energy(const uint32_t *args, struct words *answer)
{
    uint8_t config[CONFIG_FRAME], frame[DECISION_FRAME];
    if (leaf_default_config(config, sizeof config))
        return 0;
    for (size_t k = 0; k < 40; k++)
        config[CONFIG_FRAME - 40 + k] = (uint8_t)(args[5 + k / 4] >> 8 * (k % 4));
    if (leaf_energy(config, sizeof config, float_of(args[0]), float_of(args[1]), float_of(args[2]), args[3] != 0,
                    float_of(args[4]), frame, sizeof frame))
        return 0;
    for (size_t k = 66; k < 78; k += 4)
        add(answer, word_at(frame + k));
    for (size_t k = 78; k < 88; k += 5) {
        add(answer, frame[k]);
        add(answer, word_at(frame + k + 1));
    }
    add(answer, frame[88]);
    return 1;
}

/* The start of a hold, as present and value; 2^32 stands for none. */
static void add_since(uint64_t since, struct words *answer)
{
    add(answer, since <= UINT32_MAX);
    add(answer, since <= UINT32_MAX ? (uint32_t)since : 0);
}

/* The gate is lent to `evaluate`; its answer, and the gate that is left. */
static void evaluated(const uint32_t *args, struct words *answer)
{
    bool held = args[0] != 0, armed_known = args[3] != 0, armed = args[5] != 0, landed_known = args[6] != 0;
    uint8_t landed = (uint8_t)args[8], requested = (uint8_t)args[11];
    bool fault = args[12] != 0;
    add(answer, leaf_gate_eligible(held, args[1], args[2], armed_known, args[4], armed, landed_known, args[7], landed,
                                   args[9], args[10], requested, fault));
    add_since(leaf_gate_since(held, args[1], args[2], armed_known, args[4], armed, landed_known, args[7], landed,
                              args[9], args[10], requested, fault),
              answer);
}

int leaf_row(const struct words *row, struct words *answer)
{
    const uint32_t *args = row->at + 2;
    size_t count = row->count - 2;
    if (row->count < 2 || row->at[1] != count)
        return 0;
    switch (row->at[0]) {
    case 0x01: return count == 2 && (age(args, answer), 1);
    case 0x02: return count == 3 && (add(answer, leaf_fresh(args[0], args[1], args[2])), 1);
    case 0x03: return count == 1 && (reason(args, answer), 1);
    case 0x04: return count == 1 && (add(answer, leaf_action_rank((uint8_t)args[0])), 1);
    case 0x05: return count == 19 && (requested(args, answer), 1);
    case 0x06: return filed(args, count, answer);
    case 0x07: return count == 3 && (vec3(args, answer), 1);
    case 0x08: return count == 2 && (libm(args, answer), 1);
    case 0x10: return is_polygon(args, count, UINT32_MAX) && polygon(args, answer);
    case 0x11: return count > 2 && is_polygon(args + 2, count - 2, 255) && (fence(args, answer), 1);
    case 0x12: return count > 2 && is_polygon(args + 2, count - 2, 255) && distance(args, answer);
    case 0x20: return count == 0 && defaults(answer);
    case 0x21: return count == 0 && (default_fence(answer), 1);
    case 0x22: return count > 64 && is_polygon(args + 64, count - 64, 255) && (validated(args, answer), 1);
    case 0x30: return count == 15 && energy(args, answer);
    case 0x31: return count == 13 && (evaluated(args, answer), 1);
    case 0x32: return count == 2 && (add_since(leaf_gate_reset(args[0] != 0, args[1]), answer), 1);
    default: return 0;
    }
}
