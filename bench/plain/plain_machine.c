/* The public step, the race finder and the runs. A run looks once whether it has a state. */
#include "plain_machine.h"
#include "plain_place.h"

enum { NO_CELL = CELLS_MOST };

struct plain_stepped plain_step(uint8_t *state, size_t n, uint64_t thread)
{
    uint32_t answer = state_answer(state, n);
    if (answer != ACCEPTED)
        return (struct plain_stepped){ answer, 0, 0 };
    return step_known(state, thread);
}

/* The cell a thread is about to read or write; room plays no part. */
static uint8_t about_to(const uint8_t *thread)
{
    if (is_value_code(thread[0]))
        return NO_CELL;
    const uint8_t *due = thread + find_due(thread).at;
    if ((due[0] == READ || due[0] == WRITE) && due[1] == CELL_AT)
        return due[2];
    return NO_CELL;
}

struct plain_race race_known(const uint8_t *state)
{
    unsigned threads = state[THREADS_AT];
    uint8_t cell[THREADS_MOST];

    for (unsigned i = 0; i < threads; i++)
        cell[i] = about_to(state + thread_at(i));
    for (unsigned i = 0; i < threads; i++) {
        if (cell[i] == NO_CELL)
            continue;
        for (unsigned j = i + 1; j < threads; j++)
            if (cell[i] == cell[j])
                return (struct plain_race){ ACCEPTED, true, i, j, cell[i] };
    }
    return (struct plain_race){ ACCEPTED, false, 0, 0, 0 };
}

struct plain_race plain_find_race(const uint8_t *state, size_t n)
{
    uint32_t answer = state_answer(state, n);
    if (answer != ACCEPTED)
        return (struct plain_race){ answer, false, 0, 0, 0 };
    return race_known(state);
}

struct plain_run plain_run_schedule(uint8_t *state, size_t n, const uint8_t *schedule, size_t calls)
{
    struct plain_run run = { ACCEPTED, 0 };

    if (calls == 0)
        return run;
    run.answer = state_answer(state, n);
    if (run.answer != ACCEPTED)
        return run;
    for (size_t i = 0; i < calls; i++) {
        run.answer = step_known(state, schedule[i]).answer;
        run.steps += run.answer == ACCEPTED;
    }
    return run;
}

bool lowest_step(uint8_t *state, unsigned *from, struct plain_stepped *step)
{
    for (unsigned i = *from; i < state[THREADS_AT]; i++) {
        *step = step_known(state, i);
        if (step->answer == ACCEPTED) {
            *from = i;
            return true;
        }
    }
    return false;
}

/* Only a freed lock or a changed cell lets a thread step that could not before. */
unsigned next_from(unsigned stepped, uint32_t kind)
{
    return kind == STEP_RELEASE || kind == STEP_WRITE ? 0 : stepped;
}

struct plain_run plain_run_default(uint8_t *state, size_t n, uint64_t limit)
{
    struct plain_run run = { state_answer(state, n), 0 };
    struct plain_stepped step;
    unsigned from = 0;

    if (run.answer != ACCEPTED)
        return run;
    while (run.steps < limit && lowest_step(state, &from, &step)) {
        run.steps++;
        from = next_from(from, step.kind);
    }
    return run;
}
