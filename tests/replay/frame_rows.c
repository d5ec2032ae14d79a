/* Frames read and written anew by the entries of crate frames_c; the fence rules are those of leaf_fence_held. */
#include <string.h>

#include "frames.h"
#include "lists.h"

typedef uint32_t (*again)(const uint8_t *frame, size_t frame_len, uint8_t *to, size_t to_len);

uint32_t config_again(const uint8_t *frame, size_t frame_len, uint8_t *to, size_t to_len);
uint32_t fence_again(const uint8_t *frame, size_t frame_len, uint8_t *to, size_t to_len);
uint32_t telemetry_again(const uint8_t *frame, size_t frame_len, uint8_t *to, size_t to_len);
uint32_t decision_again(const uint8_t *frame, size_t frame_len, uint8_t *to, size_t to_len);
uint32_t state_again(const uint8_t *frame, size_t frame_len, uint8_t *to, size_t to_len);
uint32_t refusal_again(const uint8_t *frame, size_t frame_len, uint8_t *to, size_t to_len);
uint32_t leaf_fence_held(const uint8_t *frame, size_t frame_len, uint8_t *to, size_t to_len);

#define MOST_BYTES 2064
#define MOST_ROOM 252
#define UNTOUCHED 0xA5

/* What readers refuse with; the writers answer 5, and 11 for too many corners. */
static int refused(uint32_t number) { return number >= 1 && number <= 4; }

static again again_of(uint32_t kind)
{
    switch (kind) {
    case 1: return config_again;
    case 2: return fence_again;
    case 3: return telemetry_again;
    case 4: return decision_again;
    case 5: return state_again;
    case 255: return refusal_again;
    default: return NULL;
    }
}

static uint32_t rules(uint32_t kind, const uint8_t *frame, size_t size)
{
    uint8_t places[PLACES_FRAME];
    return kind == 2 ? leaf_fence_held(frame, size, places, sizeof places) : 0;
}

/* Bytes stand four to a word, the first in the highest digits. */
static void unpack(uint8_t *bytes, const uint32_t *words, size_t size)
{
    for (size_t k = 0; k < size; k++)
        bytes[k] = (uint8_t)(words[k / 4] >> 8 * (3 - k % 4));
}

static void add_packed(struct words *answer, const uint8_t *bytes, size_t size)
{
    for (size_t k = 0; k < size; k += 4)
        add(answer, (uint32_t)bytes[k] << 24 | (uint32_t)bytes[k + 1] << 16 | (uint32_t)bytes[k + 2] << 8 | bytes[k + 3]);
}

int frame_row(const struct words *row, struct words *answer)
{
    uint8_t frame[MOST_BYTES], buffer[MOST_ROOM + 4];
    uint32_t kind = row->at[0], room = row->at[1], size = row->at[2];
    again reads = again_of(kind);
    if (row->count < 3 || reads == NULL || size > MOST_BYTES || room > MOST_ROOM || row->count != 3 + (size + 3) / 4)
        return 0;
    unpack(frame, row->at + 3, size);
    memset(buffer, UNTOUCHED, sizeof buffer);
    uint32_t number = reads(frame, size, buffer, room);
    if (refused(number)) {
        add(answer, number);
        return 1;
    }
    add(answer, 0);
    add(answer, rules(kind, frame, size));
    add(answer, number);
    /* To the word after the room, which no writer may touch. */
    add_packed(answer, buffer, (room + 7) / 4 * 4);
    return 1;
}
