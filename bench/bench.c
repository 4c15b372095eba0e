/*
 * The bench: judges an image, loads it whatever the judge says (unless it could not be read), and steps it, by threads named after the image or by
 * keys. After every step it asks the race finder, and it stops at a race.
 *
 *   bench IMAGE [THREAD ..]
 *
 * Ends with 0; 1 at a race; 2 where it could not begin.
 */
#include <stdio.h>
#include <stdlib.h>
#include <string.h>
#include <unistd.h>
#include <termios.h>

#include "screen.h"

enum { IMAGE_ROOM = 4097, FIRST_TYPING = 10, LAST_TYPING = 16, NO_STEP = 19 };

static uint8_t image[IMAGE_ROOM], types[LAVEROCKIN_TYPE_BYTES], work[LAVEROCKIN_WORK_BYTES], state[LAVEROCKIN_STATE_BYTES];
static size_t image_length;

static int read_image(const char *name)
{
    FILE *f = fopen(name, "rb");
    if (!f) {
        fprintf(stderr, "bench: %s cannot be opened\n", name);
        return 0;
    }
    image_length = fread(image, 1, sizeof image, f);
    fclose(f);
    return 1;
}

static void refused(const char *what, struct laverockin_verdict v)
{
    printf("%s refuses: %u at %zu, %s\n", what, v.answer, v.place, answer_words(v.answer));
    if (v.answer > 1 && v.answer <= LAST_TYPING) show_place(image, image_length, v.place);
}

/* Whether there is something to step. */
static int load(void)
{
    struct laverockin_verdict v = laverockin_verdict_of(
        laverockin_judge(image, image_length, types, sizeof types, work, sizeof work));
    if (v.answer == 0) {
        printf("the judge accepts, with the type");
        for (size_t i = 0; i < v.length; i++) printf(" %02X", types[i]);
        puts("");
    } else {
        refused("the judge", v);
        if (v.answer < FIRST_TYPING) return 0;
        puts("it is loaded all the same, to be looked at");
    }
    v = laverockin_verdict_of(laverockin_raw_load(image, image_length, state, sizeof state));
    if (v.answer != 0) {
        refused("the load", v);
        return 0;
    }
    show_state(state);
    return 1;
}

/* Whether there is a race now. */
static int race(void)
{
    struct laverockin_pair r = laverockin_pair_of(laverockin_race(state, sizeof state));
    if (r.found) printf("RACE: threads %u and %u are both about to touch cell %u\n", r.first, r.second, r.cell);
    return r.found != 0;
}

static int step(unsigned long thread)
{
    show_step((unsigned)thread, laverockin_stepped_of(laverockin_step(state, sizeof state, thread)));
    show_state(state);
    return race();
}

/* The lowest-numbered thread that can. */
static int step_lowest(void)
{
    for (unsigned thread = 0;; thread++) {
        struct laverockin_stepped s = laverockin_stepped_of(laverockin_step(state, sizeof state, thread));
        if (s.answer == NO_STEP) {
            puts("no thread can step");
            return 0;
        }
        if (s.answer == 0) {
            show_step(thread, s);
            show_state(state);
            return race();
        }
    }
}

static int by_schedule(int count, char **threads)
{
    for (int i = 0; i < count; i++) {
        char *end;
        unsigned long thread = strtoul(threads[i], &end, 10);
        if (end == threads[i] || *end != 0) {
            fprintf(stderr, "bench: %s is no thread number\n", threads[i]);
            return 2;
        }
        if (step(thread)) return 1;
    }
    return 0;
}

/* ---- keys ---- */

static struct termios before;

static void keys_back(void)
{
    tcsetattr(STDIN_FILENO, TCSANOW, &before);
}

/* One key at a time, where there is a keyboard. */
static void keys_begin(void)
{
    struct termios raw;
    if (!isatty(STDIN_FILENO) || tcgetattr(STDIN_FILENO, &before) != 0) return;
    raw = before;
    raw.c_lflag &= ~(tcflag_t)(ICANON | ECHO);
    tcsetattr(STDIN_FILENO, TCSANOW, &raw);
    atexit(keys_back);
}

static void help(void)
{
    puts("keys: 0 to 9 and a to f step that thread (a is 10), n the lowest that can, s shows, l loads again, q ends");
}

static int by_keys(void)
{
    static const char digits[] = "0123456789abcdef";
    int key;
    keys_begin();
    help();
    while ((key = getchar()) != EOF && key != 'q') {
        const char *digit = key ? strchr(digits, key) : NULL;
        int raced = 0;
        if (digit) raced = step((unsigned long)(digit - digits));
        else if (key == 'n') raced = step_lowest();
        else if (key == 's') show_state(state);
        else if (key == 'l') load();
        else if (key != '\n') help();
        if (raced) return 1;
    }
    return 0;
}

int main(int argc, char **argv)
{
    if (argc < 2) {
        fprintf(stderr, "usage: bench IMAGE [THREAD ..]\n");
        return 2;
    }
    if (!read_image(argv[1]) || !load()) return 2;
    if (race()) return 1;
    return argc > 2 ? by_schedule(argc - 2, argv + 2) : by_keys();
}
