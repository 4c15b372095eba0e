/*
 * How much stack each call of the library takes: it runs on a thread whose stack is painted first, over images that nest as deep as allowed and
 * states with threads as long as allowed, and the paint that is gone is counted.
 */
#define _GNU_SOURCE
#include <pthread.h>
#include <stdio.h>
#include <string.h>

#include "laverockin.h"

enum { STACK_BYTES = 1 << 20, PAINT = 0xA5, MOST = 65536, NESTED = 63, CALLS = 40, LONG_THREAD = 2047 };

static uint8_t stack[STACK_BYTES] __attribute__((aligned(4096)));
static uint8_t image[4096], types[LAVEROCKIN_TYPE_BYTES], work[LAVEROCKIN_WORK_BYTES], state[LAVEROCKIN_STATE_BYTES];
static const uint8_t schedule[CALLS];
static size_t n;
static volatile uint64_t answer;

static void *nothing(void *unused) { return unused; }
static void *judge(void *unused) { return answer = laverockin_judge(image, n, types, sizeof types, work, sizeof work), unused; }
static void *raw_load(void *unused) { return answer = laverockin_raw_load(image, n, state, sizeof state), unused; }
static void *judged_load(void *unused) { return answer = laverockin_judged_load(image, n, state, sizeof state, work, sizeof work), unused; }
static void *step(void *unused) { return answer = laverockin_step(state, sizeof state, 0), unused; }
static void *race(void *unused) { return answer = laverockin_race(state, sizeof state), unused; }

static void *run(void *unused)
{
    uint64_t steps, last;
    laverockin_run(state, sizeof state, schedule, sizeof schedule, &steps, &last);
    return unused;
}

static void *default_run(void *unused)
{
    uint64_t steps;
    return answer = laverockin_default_run(state, sizeof state, 100, &steps), unused;
}

static void *list(void *unused)
{
    uint64_t code;
    size_t place, next = 3;
    do answer = laverockin_next(image, n, next, &code, &place, &next);
    while (answer == 0 && code != 0);
    return unused;
}

/* The bytes of the painted stack that a thread's function has touched. */
static size_t touched(void *(*function)(void *))
{
    pthread_attr_t attr;
    pthread_t thread;
    size_t i = 0;
    memset(stack, PAINT, sizeof stack);
    pthread_attr_init(&attr);
    pthread_attr_setstack(&attr, stack, sizeof stack);
    pthread_create(&thread, &attr, function, NULL);
    pthread_join(thread, NULL);
    while (i < sizeof stack && stack[i] == PAINT) i++;
    return sizeof stack - i;
}

/* `code` sixty-three times round the bytes of `inner`, as an image. */
static void nest(const uint8_t *code, size_t code_n, const uint8_t *inner, size_t inner_n)
{
    n = 3;
    for (int i = 0; i < NESTED; i++) memcpy(image + n, code, code_n), n += code_n;
    memcpy(image + n, inner, inner_n), n += inner_n;
    image[0] = (uint8_t)((n - 2) >> 8), image[1] = (uint8_t)(n - 2), image[2] = 1;
}

/* A state whose thread is a read round 2,046 others: a state has no nesting limit. */
static void long_thread(void)
{
    memset(state, 0, sizeof state);
    state[0] = 0xC0, state[1] = 0xFE, state[2] = 1, state[3] = 1;
    state[38] = (LONG_THREAD + 1) >> 8, state[39] = (LONG_THREAD + 1) & 255;
    memset(state + 256, 0x07, LONG_THREAD);
    state[256 + LONG_THREAD] = 0x01;
}

static size_t base, worst;

static void told(const char *what, void *(*function)(void *))
{
    size_t bytes = touched(function) - base;
    if (bytes > worst) worst = bytes;
    printf("  %-12s %6zu\n", what, bytes);
}

static void on_image(const char *what)
{
    printf("%s\n", what);
    told("judge", judge), told("raw load", raw_load), told("judged load", judged_load), told("lister", list);
}

int main(void)
{
    const uint8_t fork = 0x09, unit = 0x01, function[] = { 0x04, 0x20, 0, 0, 0, 0 };
    base = touched(nothing);
    nest(&fork, 1, &unit, 1);
    on_image("bytes of stack, 63 forks round unit:");
    nest(function, sizeof function, &unit, 1);
    on_image("63 functions round unit:");
    told("step", step), told("run", run), told("default run", default_run), told("race", race);
    long_thread();
    puts("a thread of 2,047 reads round unit:");
    told("step", step), told("run", run), told("default run", default_run), told("race", race);
    printf("most: %zu of %d\n", worst, MOST);
    return worst < MOST ? 0 : 1;
}
