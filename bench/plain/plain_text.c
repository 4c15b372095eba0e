/* Lines of decimal numbers, and a type in capital hex digits. */
#include <string.h>

#include "plain_judge.h"
#include "plain_machine.h"
#include "plain_text.h"

struct text {
    char *at;
    size_t length;
};

static void put_word(struct text *t, const char *word)
{
    size_t n = strlen(word);
    memcpy(t->at + t->length, word, n);
    t->length += n;
}

static void put_decimal(struct text *t, uint32_t number)
{
    char digits[10];
    size_t n = sizeof digits;

    do {
        digits[--n] = (char)('0' + number % 10);
        number /= 10;
    } while (number);
    memcpy(t->at + t->length, digits + n, sizeof digits - n);
    t->length += sizeof digits - n;
}

static void put_numbers(struct text *t, const uint32_t *numbers, size_t count)
{
    for (size_t i = 0; i < count; i++) {
        if (i > 0)
            put_word(t, " ");
        put_decimal(t, numbers[i]);
    }
    put_word(t, "\n");
}

static void put_hex(struct text *t, const uint8_t *bytes, size_t n)
{
    static const char digit[] = "0123456789ABCDEF";
    for (size_t i = 0; i < n; i++) {
        t->at[t->length++] = digit[bytes[i] >> 4];
        t->at[t->length++] = digit[bytes[i] & 15];
    }
}

static uint32_t put_judgement(struct text *t, const uint8_t *image, size_t n)
{
    uint8_t type[TYPE_BUFFER], work[WORK_BUFFER];
    struct plain_judged judged = plain_judge(image, n, type, sizeof type, work, sizeof work);

    if (judged.answer == ACCEPTED) {
        put_word(t, "accept ");
        put_hex(t, type, judged.length);
        put_word(t, "\n");
    } else {
        put_word(t, "refuse ");
        put_numbers(t, (const uint32_t[]){ judged.answer, judged.place }, 2);
    }
    return judged.answer;
}

/* True when the text ends here, with a race. */
static bool put_step(struct text *t, const uint8_t *state, uint32_t thread, struct plain_stepped step)
{
    put_numbers(t, (const uint32_t[]){ thread, step.kind, step.number }, 3);
    struct plain_race race = race_known(state);
    if (race.found) {
        put_word(t, "race ");
        put_numbers(t, (const uint32_t[]){ race.i, race.j, race.cell }, 3);
    }
    return race.found;
}

static void put_schedule(struct text *t, uint8_t *state, const uint8_t *schedule, size_t calls)
{
    for (size_t i = 0; i < calls && i < SCHEDULE_MOST; i++) {
        struct plain_stepped step = step_known(state, schedule[i]);
        if (step.answer == ACCEPTED && put_step(t, state, schedule[i], step))
            return;
    }
}

static void put_default(struct text *t, uint8_t *state)
{
    struct plain_stepped step;
    unsigned from = 0;

    for (int i = 0; i < DEFAULT_LIMIT && lowest_step(state, &from, &step); i++) {
        if (put_step(t, state, from, step))
            return;
        from = next_from(from, step.kind);
    }
}

size_t plain_judge_text(const uint8_t *input, size_t n, char *text)
{
    struct text t = { text, 0 };
    put_judgement(&t, input, n);
    return t.length;
}

/* A load that is refused here is refused with 17: 2 to 9 were told in the judge's line. */
size_t plain_trial_text(const uint8_t *input, size_t n, char *text)
{
    uint8_t state[STATE_BYTES];
    struct text t = { text, 0 };
    size_t image_n = n;

    if (n >= 2 && get_2(input) + 2u < n)
        image_n = get_2(input) + 2u;
    uint32_t answer = put_judgement(&t, input, image_n);
    if (answer >= BAD_LENGTH && answer <= LOCK_NOT_BOUND)
        return t.length;
    if (plain_load_raw(input, image_n, state, sizeof state).answer != ACCEPTED)
        put_word(&t, "load 17\n");
    else if (n > image_n)
        put_schedule(&t, state, input + image_n, n - image_n);
    else
        put_default(&t, state);
    return t.length;
}
