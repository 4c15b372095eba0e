/* Where things stand in a state, and whether bytes are one. */
#ifndef PLAIN_STATE_H
#define PLAIN_STATE_H

#include "plain_form.h"

enum {
    STATE_BYTES = 49408, STATE_FOLLOW = 0xC0FE,
    THREADS_AT = 3, CELLS_AT = 4, LOCKS_AT = 5, MARKS_AT = 6,
    THREAD_LENGTHS_AT = 38, CELL_LENGTHS_AT = 70, GAP_AT = 198,
    FIRST_THREAD_AT = 256, THREAD_ROOM = 2048, THREADS_MOST = 16,
    FIRST_CELL_AT = 33024, CELL_ROOM = 256, CELLS_MOST = 64
};

static inline size_t thread_at(size_t i) { return FIRST_THREAD_AT + i * THREAD_ROOM; }
static inline size_t cell_at(size_t j) { return FIRST_CELL_AT + j * CELL_ROOM; }
static inline size_t thread_length_at(size_t i) { return THREAD_LENGTHS_AT + 2 * i; }
static inline size_t cell_length_at(size_t j) { return CELL_LENGTHS_AT + 2 * j; }

/* Looks at STATE_BYTES bytes. */
bool is_state(const uint8_t *state);

/* 1, 18 or 0, as every function on a state answers first. */
uint32_t state_answer(const uint8_t *state, size_t n);

#endif
