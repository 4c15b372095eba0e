/*
 * Runs vector lines and compares every answer and every lent byte.
 * Arguments: the files. Ends 1 when any line differs.
 */
#include <inttypes.h>
#include <stdio.h>
#include <stdlib.h>
#include <string.h>

#include "plain_judge.h"
#include "plain_lister.h"
#include "plain_machine.h"
#include "plain_text.h"
#include "vector_erase.h"

enum { FIELDS_MOST = 8 };

/* What a line gave, for the report of a difference. */
static char said[200];

static uint64_t number(const char *field)
{
    return strtoull(field, NULL, 10);
}

/* A buffer one byte short: answer 1, nothing touched. */
static bool judge_short(struct bytes image, size_t type_n, size_t work_n)
{
    struct bytes type = lend(type_n), work = lend(work_n);
    struct plain_judged got = plain_judge(image.at, image.n, type.at, type.n, work.at, work.n);
    bool same = got.answer == 1 && got.place == 0 && untouched(type) && untouched(work);
    drop_bytes(type);
    drop_bytes(work);
    return same;
}

static bool run_judge(char **f)
{
    struct bytes image = from_hex(f[1]), due = from_hex(f[5]);
    struct bytes type = lend(TYPE_BUFFER + LENT_MORE), work = lend(WORK_BUFFER + LENT_MORE);
    struct plain_judged got = plain_judge(image.at, image.n, type.at, type.n, work.at, work.n);
    snprintf(said, sizeof said, "%u %u length %u", got.answer, got.place, got.length);
    bool same = got.answer == number(f[2]) && got.place == number(f[3]) && got.length == due.n
        && holds(type, due) && zeroed(work, WORK_BUFFER)
        && judge_short(image, TYPE_BUFFER - 1, WORK_BUFFER)
        && judge_short(image, TYPE_BUFFER, WORK_BUFFER - 1);
    drop_bytes(image);
    drop_bytes(due);
    drop_bytes(type);
    drop_bytes(work);
    return same;
}

static bool loaded_right(struct bytes image, struct plain_loaded got, struct bytes state, char **f)
{
    snprintf(said, sizeof said, "%u %u", got.answer, got.place);
    if (got.answer != number(f[2]) || got.place != number(f[3]))
        return false;
    if (got.answer != 0)
        return untouched(state);
    struct bytes due = state_due(image);
    bool same = holds(state, due) && is_state(state.at);
    drop_bytes(due);
    return same;
}

static bool run_load_raw(char **f)
{
    struct bytes image = from_hex(f[1]);
    struct bytes state = lend(STATE_BYTES + LENT_MORE), brief = lend(STATE_BYTES - 1);
    bool same = plain_load_raw(image.at, image.n, brief.at, brief.n).answer == 1 && untouched(brief);
    same &= loaded_right(image, plain_load_raw(image.at, image.n, state.at, state.n), state, f);
    drop_bytes(image);
    drop_bytes(state);
    drop_bytes(brief);
    return same;
}

static bool load_short(struct bytes image, size_t state_n, size_t work_n)
{
    struct bytes state = lend(state_n), work = lend(work_n);
    struct plain_loaded got = plain_load_judged(image.at, image.n, state.at, state.n, work.at, work.n);
    bool same = got.answer == 1 && got.place == 0 && untouched(state) && untouched(work);
    drop_bytes(state);
    drop_bytes(work);
    return same;
}

static bool run_load_judged(char **f)
{
    struct bytes image = from_hex(f[1]);
    struct bytes state = lend(STATE_BYTES + LENT_MORE), work = lend(WORK_BUFFER + LENT_MORE);
    struct plain_loaded got = plain_load_judged(image.at, image.n, state.at, state.n, work.at, work.n);
    bool same = loaded_right(image, got, state, f) && zeroed(work, WORK_BUFFER)
        && load_short(image, STATE_BYTES - 1, WORK_BUFFER)
        && load_short(image, STATE_BYTES, WORK_BUFFER - 1);
    drop_bytes(image);
    drop_bytes(state);
    drop_bytes(work);
    return same;
}

static bool run_reader(char **f)
{
    struct bytes image = from_hex(f[1]);
    size_t at = number(f[2]);
    struct plain_reader reader = { image.at, image.n, at };
    struct plain_listed got = plain_list(&reader);
    bool same;
    snprintf(said, sizeof said, "%d %u %zu, then at %zu", (int)got.kind, got.number, got.place, reader.at);
    if (strcmp(f[3], "code") == 0)
        same = got.kind == LISTED_CODE && got.number == number(f[4]) && got.place == number(f[5])
            && reader.at == number(f[6]);
    else if (strcmp(f[3], "end") == 0)
        same = got.kind == LISTED_END && reader.at == at;
    else
        same = got.kind == LISTED_REFUSAL && got.number == number(f[4]) && got.place == number(f[5])
            && reader.at == at;
    drop_bytes(image);
    return same;
}

static bool run_trial(char **f)
{
    struct bytes input = from_hex(f[1]), due = from_hex(f[2]), text = lend(TEXT_ROOM);
    size_t n = plain_trial_text(input.at, input.n, (char *)text.at);
    snprintf(said, sizeof said, "%.*s", (int)(n < 150 ? n : 150), (char *)text.at);
    bool same = n == due.n && memcmp(text.at, due.at, n) == 0;
    drop_bytes(input);
    drop_bytes(due);
    drop_bytes(text);
    return same;
}

/* A whole state is lent over-long; a short one as it is. */
static struct bytes lend_state(const char *field)
{
    struct bytes given = from_sparse(field);
    struct bytes state = lend(given.n < STATE_BYTES ? given.n : given.n + LENT_MORE);
    memcpy(state.at, given.at, given.n);
    drop_bytes(given);
    return state;
}

static bool left_as(struct bytes state, const char *field)
{
    struct bytes due = from_sparse(field);
    bool same = holds(state, due);
    drop_bytes(due);
    drop_bytes(state);
    return same;
}

static bool run_step(char **f)
{
    struct bytes state = lend_state(f[1]);
    struct plain_stepped got = plain_step(state.at, state.n, number(f[2]));
    snprintf(said, sizeof said, "%u %u %u", got.answer, got.kind, got.number);
    bool same = got.answer == number(f[3]) && got.kind == number(f[4]) && got.number == number(f[5]);
    return left_as(state, f[6]) && same;
}

static bool run_race(char **f)
{
    struct bytes state = lend_state(f[1]);
    struct plain_race got = plain_find_race(state.at, state.n);
    snprintf(said, sizeof said, "%u found %d: %u %u %u", got.answer, got.found, got.i, got.j, got.cell);
    bool none = strcmp(f[3], "-") == 0, same = got.answer == number(f[2]) && got.found == !none;
    if (!none)
        same = same && got.i == number(f[3]) && got.j == number(f[4]) && got.cell == number(f[5]);
    return left_as(state, f[1]) && same;
}

static bool run_schedule(char **f)
{
    struct bytes state = lend_state(f[1]), schedule = from_hex(f[2]);
    struct plain_run got = plain_run_schedule(state.at, state.n, schedule.at, schedule.n);
    snprintf(said, sizeof said, "%" PRIu64 " %u", got.steps, got.answer);
    drop_bytes(schedule);
    return left_as(state, f[5]) && got.steps == number(f[3]) && got.answer == number(f[4]);
}

static bool run_default(char **f)
{
    struct bytes state = lend_state(f[1]);
    struct plain_run got = plain_run_default(state.at, state.n, number(f[2]));
    snprintf(said, sizeof said, "%u %" PRIu64, got.answer, got.steps);
    return left_as(state, f[5]) && got.answer == number(f[3]) && got.steps == number(f[4]);
}

static struct kind {
    char letter;
    const char *name;
    int fields_least, fields_most;
    bool (*run)(char **fields);
    unsigned agree, differ;
} kinds[] = {
    { 'J', "judge", 6, 6, run_judge, 0, 0 },
    { 'L', "raw load", 4, 4, run_load_raw, 0, 0 },
    { 'C', "judged load", 5, 5, run_load_judged, 0, 0 },
    { 'N', "reader", 4, 7, run_reader, 0, 0 },
    { 'P', "trial program", 3, 3, run_trial, 0, 0 },
    { 'T', "step", 7, 7, run_step, 0, 0 },
    { 'R', "race finder", 4, 6, run_race, 0, 0 },
    { 'Q', "schedule run", 6, 6, run_schedule, 0, 0 },
    { 'D', "default run", 6, 6, run_default, 0, 0 }
};

enum { KINDS = sizeof kinds / sizeof kinds[0] };

static void run_line(const char *file, unsigned line_no, char *line)
{
    char *fields[FIELDS_MOST + 1] = { 0 };
    int n = 0;
    for (char *word = strtok(line, " \n"); word && n < FIELDS_MOST; word = strtok(NULL, " \n"))
        fields[n++] = word;
    if (n == 0)
        return;
    for (int k = 0; k < KINDS; k++) {
        struct kind *kind = &kinds[k];
        if (fields[0][0] != kind->letter || fields[0][1])
            continue;
        said[0] = 0;
        if (n >= kind->fields_least && n <= kind->fields_most && kind->run(fields)) {
            kind->agree++;
            return;
        }
        kind->differ++;
        printf("%s:%u: %s differs; given: %s; due:", file, line_no, kind->name, said);
        for (int i = 2; i < n; i++)
            printf(" %.60s", fields[i]);
        printf("\n");
        return;
    }
    printf("%s:%u: no such line\n", file, line_no);
    exit(2);
}

static void run_file(const char *file)
{
    static char line[1 << 20];
    FILE *in = fopen(file, "r");
    if (!in) {
        perror(file);
        exit(2);
    }
    for (unsigned n = 1; fgets(line, sizeof line, in); n++)
        run_line(file, n, line);
    fclose(in);
}

int main(int argc, char **argv)
{
    unsigned differ = 0;

    for (int i = 1; i < argc; i++)
        run_file(argv[i]);
    for (int k = 0; k < KINDS; k++) {
        printf("%c %-14s %5u agree, %u differ\n", kinds[k].letter, kinds[k].name,
               kinds[k].agree, kinds[k].differ);
        differ += kinds[k].differ;
    }
    return differ != 0;
}
