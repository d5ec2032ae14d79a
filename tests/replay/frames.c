#include "frames.h"

#include <string.h>

uint32_t word_at(const uint8_t *bytes)
{
    return bytes[0] | (uint32_t)bytes[1] << 8 | (uint32_t)bytes[2] << 16 | (uint32_t)bytes[3] << 24;
}

static uint8_t *put_byte(uint8_t *to, uint32_t x)
{
    *to = (uint8_t)x;
    return to + 1;
}

static uint8_t *put_half(uint8_t *to, uint32_t x) { return put_byte(put_byte(to, x), x >> 8); }
static uint8_t *put_word(uint8_t *to, uint32_t x) { return put_half(put_half(to, x), x >> 16); }

static uint8_t *put_words(uint8_t *to, const uint32_t *from, size_t count)
{
    for (size_t k = 0; k < count; k++)
        to = put_word(to, from[k]);
    return to;
}

static uint8_t *put_head(uint8_t *frame, uint32_t kind, size_t size)
{
    return put_half(put_half(frame, (uint32_t)size - 2), kind);
}

/* Cells, capacity, rc_required; then words alone. */
void put_config(uint8_t frame[CONFIG_FRAME], const uint32_t fields[CONFIG_WORDS])
{
    uint8_t *at = put_head(frame, 1, CONFIG_FRAME);
    at = put_word(put_byte(at, fields[0]), fields[1]);
    put_words(put_byte(at, fields[2]), fields + 3, CONFIG_WORDS - 3);
}

int is_polygon(const uint32_t *polygon, size_t left, uint32_t most)
{
    return left > 0 && polygon[0] <= most && left == 1 + 2 * (size_t)(polygon[0] < 16 ? polygon[0] : 16);
}

size_t put_fence(uint8_t frame[MOST_FENCE], uint32_t least, uint32_t greatest, const uint32_t *polygon)
{
    uint32_t count = polygon[0];
    size_t size = FENCE_FRAME(count), given = count < 16 ? count : 16;
    memset(frame, 0, size);
    uint8_t *at = put_byte(put_head(frame, 2, size), count);
    put_words(put_word(put_word(at, least), greatest), polygon + 1, 2 * given);
    return size;
}

/* A presence byte and what stands behind it; nothing but zeros where it is absent. */
static uint8_t *put_stamped(uint8_t *to, uint32_t present, uint32_t stamp, uint32_t value, size_t bytes)
{
    if (present) {
        uint8_t *at = put_word(put_byte(to, 1), stamp);
        if (bytes == 1)
            put_byte(at, value);
        else if (bytes == 4)
            put_word(at, value);
    }
    return to + 5 + bytes;
}

static uint8_t *put_position(uint8_t *to, uint32_t present, const uint32_t sample[7])
{
    if (present)
        put_words(put_byte(to, 1), sample, 7);
    return to + 29;
}

/* Stamp, fix, then satellites and hdop, each of which may be absent. */
static uint8_t *put_gps(uint8_t *to, uint32_t flags, uint32_t small, const uint32_t stamp_hdop[2])
{
    if (flags & 2) {
        uint8_t *at = put_byte(put_word(put_byte(to, 1), stamp_hdop[0]), small);
        if (flags & 4)
            put_byte(put_byte(at, 1), small >> 16);
        if (flags & 8)
            put_word(put_byte(at + 2, 1), stamp_hdop[1]);
    }
    return to + 13;
}

void put_telemetry(uint8_t frame[TELEMETRY_FRAME], const uint32_t *row)
{
    uint32_t flags = row[1], small = row[2];
    memset(frame, 0, TELEMETRY_FRAME);
    uint8_t *at = put_word(put_head(frame, 3, TELEMETRY_FRAME), row[0]);
    at = put_position(at, flags & 1, row + 3);
    at = put_gps(at, flags, small, row + 10);
    for (size_t k = 0; k < 3; k++)
        at = put_stamped(at, flags >> (4 + k) & 1, row[12 + 2 * k], row[13 + 2 * k], 4);
    at = put_stamped(at, flags & 0x80, row[18], 0, 0);
    at = put_stamped(at, flags & 0x100, row[19], flags >> 12 & 1, 1);
    at = put_stamped(at, flags & 0x200, row[20], small >> 8, 1);
    at = put_stamped(at, flags & 0x400, row[21], flags >> 13 & 1, 1);
    put_stamped(at, flags & 0x800, row[22], flags >> 14 & 1, 1);
}

void put_requests(uint8_t frame[DECISION_FRAME], const uint32_t slots[19])
{
    memset(frame, 0, DECISION_FRAME);
    uint8_t *at = put_head(frame, 4, DECISION_FRAME) + 3;
    for (size_t k = 0; k < 19; k++)
        at = put_byte(put_byte(put_byte(at, slots[k] >> 16), slots[k] >> 8), slots[k]);
}

uint32_t request_at(const uint8_t frame[DECISION_FRAME], size_t slot)
{
    const uint8_t *at = frame + 7 + 3 * slot;
    return (uint32_t)at[0] << 16 | (uint32_t)at[1] << 8 | at[2];
}

static void add_decision(struct words *answer, const uint8_t frame[DECISION_FRAME])
{
    uint32_t flags = frame[64] | (uint32_t)frame[65] << 1 | (uint32_t)frame[78] << 2 | (uint32_t)frame[83] << 3 |
                     (uint32_t)frame[88] << 4 | (uint32_t)frame[89] << 5 | (uint32_t)frame[94] << 6;
    static const size_t numbers[6] = {66, 70, 74, 79, 84, 90};
    add(answer, frame[4] | (uint32_t)frame[5] << 8 | (uint32_t)frame[6] << 16 | flags << 24);
    for (size_t k = 0; k < 6; k++)
        add(answer, word_at(frame + numbers[k]));
}

void add_step(struct words *answer, const uint8_t decision[DECISION_FRAME], const uint8_t state[STATE_FRAME])
{
    add_decision(answer, decision);
    add_digest(answer, state, STATE_FRAME);
    for (uint32_t slot = 0; slot < 19; slot++) {
        uint32_t request = request_at(decision, slot);
        if (request >> 16)
            add(answer, slot << 16 | (request & 0xFFFF));
    }
}
