/* The running state of document 01: loads, step, race finder and runs. */
#ifndef PLAIN_MACHINE_H
#define PLAIN_MACHINE_H

#include "plain_form.h"
#include "plain_state.h"

struct plain_loaded {
    uint32_t answer;
    uint32_t place;
};

struct plain_stepped {
    uint32_t answer;
    uint32_t kind;
    uint32_t number;
};

struct plain_race {
    uint32_t answer;
    bool found;
    uint32_t i, j, cell;
};

struct plain_run {
    uint32_t answer;
    uint64_t steps;
};

/* Kinds of step. */
enum {
    STEP_APPLY = 1, STEP_CELL, STEP_READ, STEP_WRITE, STEP_FORK, STEP_LOCK,
    STEP_TAKE, STEP_RELEASE, STEP_LET, STEP_THEN, STEP_ADD, STEP_IF
};

struct plain_loaded plain_load_raw(const uint8_t *image, size_t n, uint8_t *state, size_t state_n);
struct plain_loaded plain_load_judged(const uint8_t *image, size_t n, uint8_t *state, size_t state_n,
                                      uint8_t *work, size_t work_n);

struct plain_stepped plain_step(uint8_t *state, size_t n, uint64_t thread);
struct plain_race plain_find_race(const uint8_t *state, size_t n);
struct plain_run plain_run_schedule(uint8_t *state, size_t n, const uint8_t *schedule, size_t calls);
struct plain_run plain_run_default(uint8_t *state, size_t n, uint64_t limit);

/*
 * The same on bytes known to be a state, which every step leaves a state.
 * lowest_step looks from thread *from on, the threads below being known to
 * have no step, and leaves in *from the thread that stepped; next_from says
 * where to look then.
 */
struct plain_stepped step_known(uint8_t *state, uint64_t thread);
struct plain_race race_known(const uint8_t *state);
bool lowest_step(uint8_t *state, unsigned *from, struct plain_stepped *step);
unsigned next_from(unsigned stepped, uint32_t kind);

#endif
