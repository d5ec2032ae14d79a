/* The fixed lists: each function answers a row, or says with 0 that the row is not one of its list. */
#ifndef REPLAY_LISTS_H
#define REPLAY_LISTS_H
#include "words.h"

int leaf_row(const struct words *row, struct words *answer);
int flight_row(const struct words *row, struct words *answer);
int frame_row(const struct words *row, struct words *answer);
int call_row(const struct words *row, struct words *answer);
int stream_row(const struct words *row, struct words *answer);

#endif
