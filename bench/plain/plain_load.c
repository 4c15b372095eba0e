/* Both loads: an image becomes a state of one thread, with no cell and no lock. */
#include <string.h>

#include "plain_judge.h"
#include "plain_machine.h"
#include "plain_read.h"
#include "plain_type.h"

/* How many bytes of types, sets and names stand after a code and are dropped. */
static size_t dropped(const uint8_t *fields, uint8_t code)
{
    switch (code) {
    case FUNCTION:
        return type_length(fields) + SET_BYTES;
    case NEW_CELL:
        return 1 + type_length(fields + 1);
    case IF:
        return type_length(fields);
    default:
        return 0;
    }
}

/* Writes at most THREAD_ROOM bytes; the answer is over that when the erased form is. */
static size_t erase(const uint8_t *image, size_t n, uint8_t *to)
{
    size_t length = 0;

    for (size_t at = ROOT_AT; at < n;) {
        uint8_t code = image[at++];
        size_t kept = code == NUMBER ? NUMBER_BYTES : code == VARIABLE;
        at += dropped(image + at, code);
        if (length + 1 + kept > THREAD_ROOM)
            return THREAD_ROOM + 1;
        to[length++] = code;
        for (; kept; kept--)
            to[length++] = image[at++];
    }
    return length;
}

/* The image has been read without refusal. */
static struct plain_loaded load(const uint8_t *image, size_t n, uint8_t *state)
{
    uint8_t erased[THREAD_ROOM];
    size_t length = erase(image, n, erased);

    if (length > THREAD_ROOM)
        return (struct plain_loaded){ TOO_LONG_TO_LOAD, 0 };
    memset(state, 0, STATE_BYTES);
    put_2(state, STATE_FOLLOW);
    state[VERSION_AT] = VERSION;
    state[THREADS_AT] = 1;
    put_2(state + thread_length_at(0), length);
    memcpy(state + thread_at(0), erased, length);
    return (struct plain_loaded){ ACCEPTED, 0 };
}

struct plain_loaded plain_load_raw(const uint8_t *image, size_t n, uint8_t *state, size_t state_n)
{
    uint8_t levels[IMAGE_MOST], stated[IMAGE_MOST];
    struct reading r = { .image = image, .n = n, .levels = levels, .stated = stated };

    if (state_n < STATE_BYTES)
        return (struct plain_loaded){ SHORT_BUFFER, 0 };
    if (!read_image(&r))
        return (struct plain_loaded){ r.answer, r.place };
    return load(image, n, state);
}

struct plain_loaded plain_load_judged(const uint8_t *image, size_t n, uint8_t *state, size_t state_n,
                                      uint8_t *work, size_t work_n)
{
    if (state_n < STATE_BYTES || work_n < WORK_BUFFER)
        return (struct plain_loaded){ SHORT_BUFFER, 0 };
    struct plain_judged judged = judge_only(image, n, work);
    if (judged.answer != ACCEPTED)
        return (struct plain_loaded){ judged.answer, judged.place };
    return load(image, n, state);
}
