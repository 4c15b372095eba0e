/*
 * Document 01's bench examples through C. Argument: a table, a line an example: the image in hex, the schedule in hex, what thread 0 answers after it and,
 * behind a colon, its first bytes; then the judge's line and the line of each step made or of the race, parted by semicolons. A dash stands for nothing.
 * And a null pointer with length 0 for every buffer, which is an empty one.
 */
#include <stdio.h>
#include <stdlib.h>
#include <string.h>

#include "laverockin.h"
#include "plain_state.h"
#include "vector_lent.h"

enum { LINE_BYTES = 1 << 14, TEXT_ROOM = 4096 };

static uint8_t types[LAVEROCKIN_TYPE_BYTES], work[LAVEROCKIN_WORK_BYTES], state[LAVEROCKIN_STATE_BYTES];
static char text[TEXT_ROOM];
static size_t length;

#define SAY(...) (length += (size_t)snprintf(text + length, sizeof text - length, __VA_ARGS__))

static void judged(struct bytes image)
{
    struct laverockin_verdict v = laverockin_verdict_of(
        laverockin_judge(image.at, image.n, types, sizeof types, work, sizeof work));
    if (v.answer) {
        SAY("refuse %u %zu", v.answer, v.place);
        return;
    }
    SAY("accept ");
    for (size_t i = 0; i < v.length; i++) SAY("%02X", types[i]);
}

static void stepped(struct bytes schedule)
{
    for (size_t i = 0; i < schedule.n; i++) {
        struct laverockin_stepped s = laverockin_stepped_of(laverockin_step(state, sizeof state, schedule.at[i]));
        if (s.answer == 0) SAY(";%u %u %u", schedule.at[i], s.kind, s.number);
        struct laverockin_pair r = laverockin_pair_of(laverockin_race(state, sizeof state));
        if (r.found) {
            SAY(";race %u %u %u", r.first, r.second, r.cell);
            return;
        }
    }
}

/* What thread 0 answers now, and its first bytes. */
static int ends(const char *due)
{
    const char *bytes = strchr(due, ':');
    if (strcmp(due, "-") == 0) return 1;
    if (laverockin_stepped_of(laverockin_step(state, sizeof state, 0)).answer != strtoul(due, NULL, 10)) return 0;
    if (!bytes) return 1;
    struct bytes b = from_hex(bytes + 1);
    int same = memcmp(state + thread_at(0), b.at, b.n) == 0;
    drop_bytes(b);
    return same;
}

static int right(char *line)
{
    struct bytes image = from_hex(strtok(line, " ")), schedule = from_hex(strtok(NULL, " "));
    const char *last = strtok(NULL, " "), *due = strtok(NULL, "\n");
    length = 0;
    judged(image);
    int same = 1;
    if (schedule.n > 0) {
        same = laverockin_raw_load(image.at, image.n, state, sizeof state) == 0;
        stepped(schedule);
        same = same && ends(last);
    }
    same = same && strcmp(text, due) == 0;
    if (!same) printf("differs: due %s\n         is  %s\n", due, text);
    drop_bytes(image);
    drop_bytes(schedule);
    return same;
}

/* An empty image is refused with 2 at 0, an empty lent buffer with 1, an empty schedule makes no call. */
static int right_on_null(void)
{
    uint64_t steps = 1, last = 1, code = 1;
    size_t place = 1, next = 1;
    laverockin_run(NULL, 0, NULL, 0, &steps, &last);
    return laverockin_judge(NULL, 0, types, sizeof types, work, sizeof work) == 2 && laverockin_judge(NULL, 0, NULL, 0, NULL, 0) == 1
        && laverockin_raw_load(NULL, 0, NULL, 0) == 1 && laverockin_judged_load(NULL, 0, NULL, 0, NULL, 0) == 1
        && laverockin_step(NULL, 0, 0) == 1 && laverockin_race(NULL, 0) == 1 && steps == 0 && last == 0
        && laverockin_default_run(NULL, 0, 1, &steps) == 1 && steps == 0
        && laverockin_next(NULL, 0, 3, &code, &place, &next) == 0 && code == 0 && place == 0 && next == 3;
}

int main(int argc, char **argv)
{
    static char line[LINE_BYTES];
    unsigned agree = 0, differ = 0;
    FILE *f = argc > 1 ? fopen(argv[1], "r") : NULL;
    if (!f) return fprintf(stderr, "usage: examples TABLE\n"), 2;
    while (fgets(line, sizeof line, f)) right(line) ? agree++ : differ++;
    fclose(f);
    if (!right_on_null()) differ++, puts("differs: null pointers");
    printf("%u examples and null pointers, %u differ\n", agree, differ);
    return differ > 0 || agree == 0;
}
