/*
 * The proved library against the plain C judge and machine, on programs and states made by chance, right and damaged. Every answer and every byte of
 * every lent buffer is compared, those past what document 01 lends too.
 *
 *   differ COUNT [SEED]
 *
 * Ends with 0 when nothing differs; else it prints the image and what was called, and ends with 1.
 */
#include <stdio.h>
#include <stdlib.h>
#include <string.h>

#include "generate.h"
#include "laverockin.h"
#include "plain_judge.h"
#include "plain_lister.h"
#include "plain_machine.h"

enum { IMAGE_ROOM = 4200, MORE = 61, PATTERN = 0xA5, CALLS_MOST = 60 };

static uint8_t image[IMAGE_ROOM];
static size_t image_length;

/* Two of each lent buffer: one for either side. */
static uint8_t types[2][LAVEROCKIN_TYPE_BYTES + MORE], work[2][LAVEROCKIN_WORK_BYTES + MORE], state[2][LAVEROCKIN_STATE_BYTES + MORE];
static size_t types_length, work_length, state_length;
static uint64_t told[32];

static void differs(const char *what)
{
    printf("differs: %s\nimage:", what);
    for (size_t i = 0; i < image_length; i++) printf(" %02X", image[i]);
    printf("\nlent: types %zu, work %zu, state %zu\n", types_length, work_length, state_length);
    exit(1);
}

static void hold(int same, const char *what)
{
    if (!same || memcmp(types[0], types[1], sizeof types[0]) || memcmp(work[0], work[1], sizeof work[0])
        || memcmp(state[0], state[1], sizeof state[0]))
        differs(what);
}

/* One buffer in eight is too short. */
static size_t lent(size_t least)
{
    return chance(8) ? least + chance(MORE) : least - 1 - chance(MORE);
}

static void lend(void)
{
    memset(types, PATTERN, sizeof types);
    memset(work, PATTERN, sizeof work);
    types_length = lent(LAVEROCKIN_TYPE_BYTES), work_length = lent(LAVEROCKIN_WORK_BYTES), state_length = lent(LAVEROCKIN_STATE_BYTES);
}

static void judge(void)
{
    struct plain_judged p = plain_judge(image, image_length, types[0], types_length, work[0], work_length);
    struct laverockin_verdict v = laverockin_verdict_of(
        laverockin_judge(image, image_length, types[1], types_length, work[1], work_length));
    hold(p.answer == v.answer && p.place == v.place && p.length == v.length, "judge");
    told[v.answer & 31]++;
}

static void judged_load(void)
{
    struct plain_loaded p = plain_load_judged(image, image_length, state[0], state_length, work[0], work_length);
    struct laverockin_verdict v = laverockin_verdict_of(
        laverockin_judged_load(image, image_length, state[1], state_length, work[1], work_length));
    hold(p.answer == v.answer && p.place == v.place, "judged load");
}

static void raw_load(void)
{
    struct plain_loaded p = plain_load_raw(image, image_length, state[0], state_length);
    struct laverockin_verdict v = laverockin_verdict_of(laverockin_raw_load(image, image_length, state[1], state_length));
    hold(p.answer == v.answer && p.place == v.place, "raw load");
}

static uint64_t thread_number(void)
{
    uint64_t n = chance(3) ? chance(2) : chance(18);
    return chance(40) ? n : n + (chance(2) ? 256 : UINT64_C(1) << 32);
}

static void step(void)
{
    uint64_t thread = thread_number();
    struct plain_stepped p = plain_step(state[0], state_length, thread);
    struct laverockin_stepped s = laverockin_stepped_of(laverockin_step(state[1], state_length, thread));
    hold(p.answer == s.answer && p.kind == s.kind && p.number == s.number, "step");
    told[s.answer & 31]++;
}

static void race(void)
{
    struct plain_race p = plain_find_race(state[0], state_length);
    struct laverockin_pair r = laverockin_pair_of(laverockin_race(state[1], state_length));
    hold(p.answer == r.answer && p.found == (r.found != 0) && p.i == r.first && p.j == r.second && p.cell == r.cell, "race");
}

static void run(void)
{
    uint8_t schedule[CALLS_MOST];
    uint64_t steps, last;
    size_t calls = chance(CALLS_MOST);
    for (size_t i = 0; i < calls; i++) schedule[i] = (uint8_t)thread_number();
    struct plain_run p = plain_run_schedule(state[0], state_length, schedule, calls);
    laverockin_run(state[1], state_length, schedule, calls, &steps, &last);
    hold(p.answer == last && p.steps == steps, "run");
}

static void default_run(void)
{
    uint64_t steps, limit = chance(200);
    struct plain_run p = plain_run_default(state[0], state_length, limit);
    uint64_t answer = laverockin_default_run(state[1], state_length, limit, &steps);
    hold(p.answer == answer && p.steps == steps, "default run");
}

static void list(void)
{
    struct plain_reader reader = { image, image_length, chance(8) ? 3 : chance(IMAGE_ROOM) };
    for (;;) {
        uint64_t code;
        size_t place, next, at = reader.at;
        struct plain_listed p = plain_list(&reader);
        uint64_t answer = laverockin_next(image, image_length, at, &code, &place, &next);
        int same = p.kind == LISTED_REFUSAL ? answer == p.number && code == 0 && place == p.place
            : p.kind == LISTED_END ? answer == 0 && code == 0 : answer == 0 && code == p.number && place == p.place;
        hold(same && next == reader.at, "lister");
        if (p.kind != LISTED_CODE) return;
    }
}

/* In a state most bytes are unused: what is damaged lies in the header, in thread 0 or in a cell. */
static void damage_state(void)
{
    static const uint32_t from[] = { 0, 256, 2304, 33024 }, over[] = { 256, 64, 64, 64 };
    unsigned part = chance(4);
    size_t at = from[part] + chance(over[part]);
    uint8_t b = (uint8_t)(chance(2) ? chance(20) : state[0][at] + 1u);
    if (at < state_length) state[0][at] = state[1][at] = b;
}

static void one(void)
{
    image_length = generate(image, chance(20) ? 1000 : IMAGE_ROOM);
    if (chance(3) == 0) image_length = damage(image, image_length, IMAGE_ROOM, 1 + chance(3));
    if (chance(4) == 0 && image_length >= 2) image[0] = (uint8_t)((image_length - 2) >> 8), image[1] = (uint8_t)(image_length - 2);
    memset(state, PATTERN, sizeof state);
    lend();
    judge();
    lend();
    judged_load();
    raw_load();
    list();
    for (unsigned i = chance(40); i > 0; i--) {
        step();
        race();
        if (chance(30) == 0) damage_state();
    }
    run();
    default_run();
    race();
}

int main(int argc, char **argv)
{
    unsigned long count = argc > 1 ? strtoul(argv[1], NULL, 10) : 0;
    chance_from(argc > 2 ? strtoull(argv[2], NULL, 10) : 1);
    if (count == 0) return fprintf(stderr, "usage: differ COUNT [SEED]\n"), 2;
    for (unsigned long i = 0; i < count; i++) one();
    printf("%lu programs, nothing differs; answers seen:", count);
    for (unsigned i = 0; i < 32; i++) if (told[i]) printf(" %u", i);
    puts("");
    return 0;
}
