/* Frames made of a row's words, and words read off a frame. Document 01 has the places of the fields. */
#ifndef REPLAY_FRAMES_H
#define REPLAY_FRAMES_H
#include "words.h"

#define CONFIG_WORDS 62
#define CONFIG_FRAME 246
#define FENCE_FRAME(count) (13 + 8 * (size_t)(count))
#define MOST_FENCE FENCE_FRAME(255)
#define PLACES_FRAME FENCE_FRAME(16)
#define STATE_FRAME 186
#define TELEMETRY_FRAME 106
#define DECISION_FRAME 95

uint32_t word_at(const uint8_t *bytes);
void put_config(uint8_t frame[CONFIG_FRAME], const uint32_t fields[CONFIG_WORDS]);
/* Whether `left` words are a polygon: its count, at most `most`, and its corners, of which the row has sixteen at most. */
int is_polygon(const uint32_t *polygon, size_t left, uint32_t most);
/* The frame of a polygon of at most 255 corners; its size is handed back. */
size_t put_fence(uint8_t frame[MOST_FENCE], uint32_t least, uint32_t greatest, const uint32_t *polygon);
void put_telemetry(uint8_t frame[TELEMETRY_FRAME], const uint32_t *row);
/* A Decision that has nothing but its nineteen requests, each a word with a byte for presence, reason and action. */
void put_requests(uint8_t frame[DECISION_FRAME], const uint32_t slots[19]);
uint32_t request_at(const uint8_t frame[DECISION_FRAME], size_t slot);
void add_step(struct words *answer, const uint8_t decision[DECISION_FRAME], const uint8_t state[STATE_FRAME]);

#endif
