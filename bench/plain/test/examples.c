/* The bench examples of document 01, and limits that lie at the edge of its numbers. */
#include <stdio.h>
#include <string.h>

#include "plain_judge.h"
#include "plain_lister.h"
#include "plain_machine.h"
#include "plain_text.h"

static unsigned agree, differ;

static void check(const char *what, bool same)
{
    if (same) {
        agree++;
    } else {
        differ++;
        printf("differs: %s\n", what);
    }
}

/* An image made of its expression: length and version are put before it. */
static uint8_t image[IMAGE_MOST + 3];
static size_t image_n;

static void begin(void)
{
    image_n = ROOT_AT;
    image[VERSION_AT] = VERSION;
}

static void add(const uint8_t *bytes, size_t n)
{
    memcpy(image + image_n, bytes, n);
    image_n += n;
    put_2(image, image_n - 2);
}

#define ADD(...) add((const uint8_t[]){ __VA_ARGS__ }, sizeof((const uint8_t[]){ __VA_ARGS__ }))

static void add_times(uint8_t code, size_t times)
{
    for (size_t i = 0; i < times; i++)
        ADD(code);
}

static uint8_t type[TYPE_BUFFER], work[WORK_BUFFER], state[STATE_BYTES];

static void judged(const char *what, uint32_t answer, uint32_t place)
{
    struct plain_judged got = plain_judge(image, image_n, type, sizeof type, work, sizeof work);
    check(what, got.answer == answer && got.place == place);
}

static void stepped(const char *what, uint32_t answer, uint32_t kind, uint32_t number)
{
    struct plain_stepped got = plain_step(state, sizeof state, 0);
    check(what, got.answer == answer && got.kind == kind && got.number == number);
}

static void load(const char *what, uint32_t answer)
{
    check(what, plain_load_raw(image, image_n, state, sizeof state).answer == answer);
}

static void starred(void)
{
    begin(), ADD(0x01);
    judged("unit", 0, 0);
    begin(), ADD(0x0A, 0x0C, 0x06, 0, 0x21, 0x02, 0, 0, 0, 5, 0x0B, 3, 1, 7, 3, 0);
    judged("section", 0, 0);
    check("section's type", type[0] == TYPE_INT);
    load("section loads", 0);
    stepped("lock", 0, 6, 0), stepped("cell", 0, 2, 0), stepped("let", 0, 9, 0);
    stepped("take", 0, 7, 0), stepped("read", 0, 3, 0), stepped("release", 0, 8, 0);
    stepped("finished", 20, 0, 0);
    check("five", memcmp(state + thread_at(0), (const uint8_t[]){ 2, 0, 0, 0, 5 }, 5) == 0);
    begin(), ADD(0x0A, 0x0C, 0x06, 0, 0x21, 0x02, 0, 0, 0, 5, 7, 3, 0);
    judged("no section", 16, 3);
    begin(), ADD(0x0A, 3, 0);
    judged("lock in type", 15, 3);
    begin(), ADD(0x0A, 0x0C, 0x06, 0, 0x21, 0x02, 0, 0, 0, 0, 0x0B, 3, 1, 9, 7, 3, 0);
    judged("forked need", 14, 16);
    begin(), ADD(0x0A, 0x0B, 3, 0, 0x0B, 3, 0, 1);
    judged("twice one lock", 0, 0);
    load("twice loads", 0);
    stepped("lock", 0, 6, 0), stepped("take", 0, 7, 0), stepped("waits", 21, 0, 0);
    begin(), ADD(5, 2, 0, 0, 0, 1, 1);
    judged("no function", 11, 4);
    begin(), ADD(3, 0);
    judged("not bound", 8, 4);
    begin(), ADD(1), image[VERSION_AT] = 2;
    judged("version", 3, 2);
    begin(), put_2(image, 1);
    judged("no expression", 5, 3);
    begin(), ADD(1, 1);
    judged("left over", 6, 4);
}

static void unstarred(void)
{
    struct plain_judged got = plain_judge(NULL, 0, type, sizeof type, work, sizeof work);
    check("empty", got.answer == 2 && got.place == 0);
    begin(), ADD(0x20);
    judged("no such code", 4, 3);
    begin(), add_times(0x0A, 32), ADD(1);
    judged("32 locks", 0, 0);
    begin(), add_times(0x0A, 33), ADD(1);
    judged("33 locks", 7, 35);
    begin(), add_times(9, 63), ADD(1);
    judged("63 forks", 0, 0);
    begin(), add_times(9, 64), ADD(1);
    judged("64 forks", 7, 67);
}

static void trial_text(void)
{
    static const char due[] = "refuse 14 14\n0 6 0\n0 2 0\n0 9 0\n0 5 1\n0 10 0\nrace 0 1 0\n";
    static char text[TEXT_ROOM];
    begin(), ADD(0x0A, 0x0C, 6, 0, 0x21, 2, 0, 0, 0, 0, 0x0D, 9, 8, 3, 0, 2, 0, 0, 0, 1, 7, 3, 0);
    size_t n = image_n;
    memset(image + n, 0, 5);
    check("trial", plain_trial_text(image, n + 5, text) == strlen(due) && !memcmp(text, due, strlen(due)));
    check("judge's line", plain_judge_text(image, n, text) == 13 && !memcmp(text, due, 13));
}

/* A Function type of 1 + 6k bytes nested k + 1 deep, or one byte more when it ends in a lock. */
static void add_function_type(size_t k, bool lock)
{
    for (size_t i = 0; i < k; i++)
        ADD(0x24, 0x20, 0, 0, 0, 0);
    if (lock)
        ADD(0x22, 0);
    else
        ADD(0x20);
}

/* A type of 250 to 257 bytes that names lock 0: four such types under three Functions. */
static void add_long_type(size_t n)
{
    size_t functions = (n - 20) / 6, locks = n - 19 - functions * 6;

    ADD(0x24, 0x24);
    add_function_type(functions / 4, locks > 0);
    ADD(0, 0, 0, 0);
    add_function_type(functions / 4, locks > 1);
    ADD(0, 0, 0, 0, 0x24);
    add_function_type(functions / 4, locks > 2);
    ADD(0, 0, 0, 0);
    add_function_type(functions - functions / 4 * 3, locks > 3);
}

static void long_argument(const char *what, size_t n, uint32_t answer, uint32_t place)
{
    begin(), ADD(0x0A, 4), add_long_type(n), ADD(0, 0, 0, 0, 1);
    judged(what, answer, place);
}

static void long_content(const char *what, size_t n, uint32_t answer, uint32_t place)
{
    begin(), ADD(0x0A, 4), add_long_type(n), ADD(0, 0, 0, 0, 0x0D, 6, 0), add_long_type(n), ADD(3, 0, 1);
    judged(what, answer, place);
}

static void lengths_of_types(void)
{
    begin(), ADD(4), add_function_type(16, false), ADD(0, 0, 0, 0, 1);
    judged("stated type nested 17, at the last argument", 7, 4 + 15 * 6 + 1);
    begin(), ADD(4), add_function_type(15, false), ADD(0, 0, 0, 0, 1);
    judged("stated type nested 16", 0, 0);
    long_argument("own type of 256 bytes", 250, 15, 3);
    long_argument("own type of 257 bytes", 251, 10, 4);
    long_argument("stated type of 256 bytes", 256, 10, 4);
    long_argument("stated type of 257 bytes", 257, 7, 5);
    long_content("Ref of 256 bytes, then the function's own type", 254, 10, 4);
    long_content("Ref of 257 bytes", 255, 10, 4 + 1 + 255 + 4 + 1);
}

static void lister_edges(void)
{
    static uint8_t deep[60000];
    memset(deep, 0x24, sizeof deep);
    deep[3] = IF;
    struct plain_reader reader = { deep, sizeof deep, ROOT_AT };
    struct plain_listed got = plain_list(&reader);
    check("deep type cut", got.kind == LISTED_REFUSAL && got.number == 5 && got.place == sizeof deep
          && reader.at == ROOT_AT);
    reader.at = SIZE_MAX;
    check("past the end", plain_list(&reader).kind == LISTED_END && reader.at == SIZE_MAX);
}

/* A thread of n bytes whose code is nested as deep as it goes. */
static void deep_state(uint8_t code, size_t n)
{
    begin(), ADD(1);
    load("unit loads", 0);
    memset(state + thread_at(0), code, n - 1);
    state[thread_at(0) + n - 1] = UNIT;
    put_2(state + thread_length_at(0), n);
}

static void deep_states(void)
{
    deep_state(READ, 2048);
    stepped("2,047 reads", 22, 0, 0);
    deep_state(NEW_LOCK, 2048);
    for (uint32_t i = 0; i < 32; i++)
        stepped("deep lock", 0, 6, i);
    stepped("33rd lock", 23, 0, 0);
    deep_state(IF, 2048);
    stepped("ifs without parts", 18, 0, 0);
    deep_state(FUNCTION, 2048);
    stepped("2,047 functions", 20, 0, 0);
    put_2(state + thread_length_at(0), 0);
    stepped("no thread at all", 18, 0, 0);
    begin(), add_times(0x0D, 40), add_times(1, 41);
    load("thens load", 0);
    struct plain_run run = plain_run_default(state, sizeof state, UINT64_MAX);
    check("forty thens", run.answer == 0 && run.steps == 40);
    check("thread 2^32", plain_step(state, sizeof state, UINT64_C(1) << 32).answer == 19);
}

/* Pairs of numbers joined by add, built to pass the room of a thread. */
static void add_sum(unsigned depth)
{
    if (depth == 0) {
        ADD(2, 0, 0, 0, 1);
        return;
    }
    ADD(0x0E);
    add_sum(depth - 1);
    add_sum(depth - 1);
}

static void rooms(void)
{
    begin(), ADD(0x0D), add_sum(8), add_sum(6);
    judged("long accepted", 0, 0);
    load("1,919 bytes fit", 0);
    begin(), ADD(0x0D), add_sum(8), add_sum(8);
    judged("longer accepted", 0, 0);
    load("3,071 bytes do not", 17);
    begin(), ADD(0x0C, 4, 0x20, 0, 0, 0, 0), add_sum(7), ADD(0x0D, 3, 0, 0x0D, 3, 0, 3, 0);
    load("let loads", 0);
    stepped("let of three long values", 24, 0, 0);
}

int main(void)
{
    starred();
    unstarred();
    trial_text();
    lengths_of_types();
    lister_edges();
    deep_states();
    rooms();
    printf("examples       %5u agree, %u differ\n", agree, differ);
    return differ != 0;
}
