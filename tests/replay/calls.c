/* Calls of the entries, each on the buffers that the last one left, by what is new in them. Around each buffer stand bytes
 * that no call may touch, and a call may write to nothing but state and output. */
#include <string.h>

#include "failsafe.h"
#include "lists.h"

enum { CONFIG, FENCE, STATE, TELEMETRY, OUTPUT, AREAS, AREA, BUFFERS };

#define MOST_BYTES 9000
#define AROUND 32
#define UNTOUCHED 0xC3

struct buffer {
    uint8_t bytes[AROUND + MOST_BYTES + AROUND];
    size_t size;
};

static struct buffer held[BUFFERS], given[BUFFERS];

static uint8_t *at(int which) { return held[which].bytes + AROUND; }
static size_t size_of(int which) { return held[which].size; }

/* The next words of a row; `left` is how many there are. */
struct reader {
    const uint32_t *next;
    size_t left;
};

static int take(struct reader *from, uint32_t *word)
{
    if (from->left == 0)
        return 0;
    *word = *from->next++;
    from->left--;
    return 1;
}

/* Cut, or filled up with zeros, to the new size. */
static void resize(struct buffer *buffer, size_t size)
{
    uint8_t *bytes = buffer->bytes + AROUND;
    if (size > buffer->size)
        memset(bytes + buffer->size, 0, size - buffer->size);
    memset(buffer->bytes, UNTOUCHED, AROUND);
    memset(bytes + size, UNTOUCHED, AROUND);
    buffer->size = size;
}

/* Size, place of the first new byte, their number, and these, four to a word with the first in the highest digits. */
static int renew(struct buffer *buffer, struct reader *from)
{
    uint32_t size, first, count, word = 0;
    if (!take(from, &size) || !take(from, &first) || !take(from, &count))
        return 0;
    if (size > MOST_BYTES || first > size || count > size - first)
        return 0;
    resize(buffer, size);
    for (uint32_t k = 0; k < count; k++) {
        if (k % 4 == 0 && !take(from, &word))
            return 0;
        buffer->bytes[AROUND + first + k] = (uint8_t)(word >> 8 * (3 - k % 4));
    }
    return 1;
}

static uint32_t call(uint32_t entry, uint8_t number)
{
    switch (entry) {
    case 0x60:
        return failsafe_step(at(CONFIG), size_of(CONFIG), at(FENCE), size_of(FENCE), at(STATE), size_of(STATE),
                             at(TELEMETRY), size_of(TELEMETRY), at(OUTPUT), size_of(OUTPUT));
    case 0x61:
        return failsafe_step_side(at(CONFIG), size_of(CONFIG), at(FENCE), size_of(FENCE), at(STATE), size_of(STATE),
                                  at(TELEMETRY), size_of(TELEMETRY), at(OUTPUT), size_of(OUTPUT));
    case 0x62:
        return failsafe_step_areas(at(CONFIG), size_of(CONFIG), at(FENCE), size_of(FENCE), at(STATE), size_of(STATE),
                                   at(TELEMETRY), size_of(TELEMETRY), at(OUTPUT), size_of(OUTPUT), at(AREAS),
                                   size_of(AREAS));
    case 0x63:
        return failsafe_add_area(at(AREAS), size_of(AREAS), at(AREA), size_of(AREA), at(OUTPUT), size_of(OUTPUT));
    case 0x64: return failsafe_remove_area(at(AREAS), size_of(AREAS), number, at(OUTPUT), size_of(OUTPUT));
    case 0x65: return failsafe_fresh(at(STATE), size_of(STATE));
    default: return failsafe_check(at(CONFIG), size_of(CONFIG), at(FENCE), size_of(FENCE));
    }
}

/* The buffers that an entry is handed, in order; -1 ends them. */
static const int *handed(uint32_t entry)
{
    static const int step[] = {CONFIG, FENCE, STATE, TELEMETRY, OUTPUT, -1};
    static const int areas[] = {CONFIG, FENCE, STATE, TELEMETRY, OUTPUT, AREAS, -1};
    static const int added[] = {AREAS, AREA, OUTPUT, -1}, removed[] = {AREAS, OUTPUT, -1};
    static const int fresh[] = {STATE, -1}, checked[] = {CONFIG, FENCE, -1};
    switch (entry) {
    case 0x60:
    case 0x61: return step;
    case 0x62: return areas;
    case 0x63: return added;
    case 0x64: return removed;
    case 0x65: return fresh;
    case 0x66: return checked;
    default: return NULL;
    }
}

/* Nothing was written that may not be: inputs and the bytes around every buffer are as they were. */
static int kept(int which)
{
    int written = which == STATE || which == OUTPUT;
    size_t after = AROUND + size_of(which);
    const uint8_t *now = held[which].bytes, *before = given[which].bytes;
    return memcmp(now, before, AROUND) == 0 && memcmp(now + after, before + after, AROUND) == 0 &&
           (written || memcmp(now, before, after) == 0);
}

int call_row(const struct words *row, struct words *answer)
{
    uint32_t number = 0;
    const int *buffers = row->count < 2 ? NULL : handed(row->at[0]);
    struct reader from = {row->at + 2, row->count - 2};
    if (buffers == NULL || row->at[1] != from.left || (row->at[0] == 0x64 && !take(&from, &number)))
        return 0;
    for (const int *which = buffers; *which >= 0; which++)
        if (!renew(&held[*which], &from))
            return 0;
    if (from.left != 0)
        return 0;
    memcpy(given, held, sizeof held);
    add(answer, call(row->at[0], (uint8_t)number));
    for (const int *which = buffers; *which >= 0; which++) {
        if (!kept(*which))
            return 0;
        if (*which == STATE || *which == OUTPUT)
            add_digest(answer, at(*which), size_of(*which));
    }
    return 1;
}
