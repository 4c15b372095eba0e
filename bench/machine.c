/*
 * The proved machine beside the plain one, on the same states, in one process: nanoseconds of a call, and how they compare.
 * Argument: a file with lines `T state ..`. Every state is given to both first, and they must agree. Each call has the state put back before it, in
 * both. A step in a run is timed on a program that never ends, alone and before a long rest: the time of many steps by their number.
 */
#define _POSIX_C_SOURCE 200809L
#include <stdio.h>
#include <stdlib.h>
#include <string.h>
#include <time.h>

#include "laverockin.h"
#include "plain_machine.h"
#include "vector_lent.h"

enum { STATES_MOST = 2000, LINE_BYTES = 1 << 17, ROUNDS = 15, CALLS = 8192 };

struct case_of { struct bytes state; uint64_t thread; };

static struct case_of cases[STATES_MOST];
static size_t count;
static uint8_t state[STATE_BYTES];
static const uint8_t schedule[CALLS];

/* What is timed: what it answers, so that nothing is left out. */
typedef uint64_t call_of(const struct case_of *);

static uint64_t plain_valid(const struct case_of *c)
{
    (void)c;
    return plain_step(state, STATE_BYTES, UINT64_MAX).answer;
}

static uint64_t proved_valid(const struct case_of *c)
{
    (void)c;
    return laverockin_step(state, STATE_BYTES, UINT64_MAX);
}

static uint64_t plain_stepped_by(const struct case_of *c)
{
    struct plain_stepped s = plain_step(state, STATE_BYTES, c->thread);
    return s.answer + 256 * (uint64_t)s.kind + 65536 * (uint64_t)s.number;
}

static uint64_t proved_stepped_by(const struct case_of *c)
{
    return laverockin_step(state, STATE_BYTES, c->thread);
}

static uint64_t plain_raced(const struct case_of *c)
{
    (void)c;
    struct plain_race r = plain_find_race(state, STATE_BYTES);
    return r.answer + (r.found ? 256 * (1 + 256 * (r.i + 256 * (r.j + 256 * (uint64_t)r.cell))) : 0);
}

static uint64_t proved_raced(const struct case_of *c)
{
    (void)c;
    return laverockin_race(state, STATE_BYTES);
}

static uint64_t plain_ran(const struct case_of *c)
{
    (void)c;
    struct plain_run r = plain_run_schedule(state, STATE_BYTES, schedule, CALLS);
    return r.answer + 256 * r.steps;
}

static uint64_t proved_ran(const struct case_of *c)
{
    uint64_t steps, last;
    (void)c;
    laverockin_run(state, STATE_BYTES, schedule, CALLS, &steps, &last);
    return last + 256 * steps;
}

static double now(void)
{
    struct timespec t;
    clock_gettime(CLOCK_MONOTONIC, &t);
    return (double)t.tv_sec * 1e9 + (double)t.tv_nsec;
}

/* The least of several rounds. */
static double nanoseconds(call_of *call, const struct case_of *c)
{
    double best = 1e18;
    volatile uint64_t sink = 0;
    for (int round = 0; round < ROUNDS; round++) {
        memcpy(state, c->state.at, STATE_BYTES);
        double start = now();
        sink += call(c);
        double each = now() - start;
        if (each < best) best = each;
    }
    return best;
}

static int agree(call_of *plain, call_of *proved, const struct case_of *c)
{
    static uint8_t after[STATE_BYTES];
    memcpy(state, c->state.at, STATE_BYTES);
    uint64_t a = plain(c);
    memcpy(after, state, STATE_BYTES);
    memcpy(state, c->state.at, STATE_BYTES);
    return a == proved(c) && memcmp(after, state, STATE_BYTES) == 0;
}

static void told(const char *what, double plain, double proved, double times)
{
    printf("%-34s plain %6.0f ns, proved %6.0f ns, %.2f times\n", what, plain / times, proved / times, proved / plain);
}

static void timed(const char *what, call_of *plain, call_of *proved)
{
    double a = 0, b = 0;
    for (size_t i = 0; i < count; i++) {
        if (!agree(plain, proved, &cases[i])) fprintf(stderr, "the two differ on state %zu\n", i), exit(1);
        a += nanoseconds(plain, &cases[i]);
        b += nanoseconds(proved, &cases[i]);
    }
    told(what, a, b, (double)count);
}

/* A cell's function reads the cell and applies what it finds there, for ever; behind it, never reached, a rest of so many sums. */
static void timed_run(const char *what, size_t rest)
{
    static const uint8_t loop[] = {
        0x0A, 0x0C, 0x06, 0, 0x20, 0x01, 0x0D, 0x08, 0x03, 0, 0x04, 0x20, 0, 0, 0, 0, 0x05, 0x07, 0x03, 1, 0x01, 0x05, 0x07, 0x03, 0, 0x01
    };
    static uint8_t image[4096], loaded[STATE_BYTES];
    size_t n = 3;
    struct case_of c = { { loaded, STATE_BYTES }, 0 };
    image[2] = 1;
    if (rest > 0) image[n++] = 0x0D;
    memcpy(image + n, loop, sizeof loop), n += sizeof loop;
    for (size_t i = 0; i < rest; i++) memcpy(image + n, (const uint8_t[]){ 0x0D, 0x02, 0, 0, 0, 1 }, 6), n += 6;
    if (rest > 0) image[n++] = 0x01;
    image[0] = (uint8_t)((n - 2) >> 8), image[1] = (uint8_t)(n - 2);
    if (laverockin_raw_load(image, n, loaded, STATE_BYTES) != 0) fprintf(stderr, "the loop does not load\n"), exit(1);
    if (!agree(plain_ran, proved_ran, &c)) fprintf(stderr, "the two differ on the loop\n"), exit(1);
    told(what, nanoseconds(plain_ran, &c), nanoseconds(proved_ran, &c), CALLS);
}

static void take(char *line)
{
    strtok(line, " ");
    struct case_of c = { from_sparse(strtok(NULL, " ")), 0 };
    c.thread = strtoull(strtok(NULL, " "), NULL, 10);
    if (c.state.n >= STATE_BYTES && is_state(c.state.at)) cases[count++] = c;
}

int main(int argc, char **argv)
{
    static char line[LINE_BYTES];
    FILE *f = argc > 1 ? fopen(argv[1], "r") : NULL;
    if (!f) return fprintf(stderr, "no file of vectors\n"), 2;
    while (fgets(line, sizeof line, f) && count < STATES_MOST)
        if (line[0] == 'T' && line[1] == ' ') take(line);
    fclose(f);
    timed("is it a state", plain_valid, proved_valid);
    timed("a step, with that", plain_stepped_by, proved_stepped_by);
    timed("race finder, with that", plain_raced, proved_raced);
    timed_run("a step in a run, thread of 12 bytes", 0);
    timed_run("a step in a run, thread of 200 bytes", 30);
    return 0;
}
