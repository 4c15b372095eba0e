/* Walks over the running form, which has no nesting limit: nothing here calls itself. */
#include <string.h>

#include "plain_place.h"
#include "plain_state.h"

static const uint8_t field_bytes[OPEN_SECTION + 1] = {
    [NUMBER] = NUMBER_BYTES, [VARIABLE] = 1, [LOCK_AT] = 1, [CELL_AT] = 1, [OPEN_SECTION] = 1
};

static const uint8_t parts[OPEN_SECTION + 1] = {
    [FUNCTION] = 1, [APPLY] = 2, [NEW_CELL] = 1, [READ] = 1, [WRITE] = 2, [FORK] = 1, [NEW_LOCK] = 1,
    [SECTION] = 2, [LET] = 2, [THEN] = 2, [ADD] = 2, [IF] = 3, [OPEN_SECTION] = 1
};

size_t expression_end(const uint8_t *thread, size_t at)
{
    for (size_t due = 1; due > 0; due--) {
        uint8_t code = thread[at];
        at += 1 + (size_t)field_bytes[code];
        due += parts[code];
    }
    return at;
}

static bool evaluates_both(uint8_t code)
{
    return code == APPLY || code == WRITE || code == ADD;
}

struct due find_due(const uint8_t *thread)
{
    size_t at = 0;

    for (;;) {
        uint8_t code = thread[at];
        if (code == FORK || code == NEW_LOCK)
            return (struct due){ at, at + 1 };
        size_t first = at + 1 + (code == OPEN_SECTION);
        if (!is_value_code(thread[first])) {
            at = first;
            continue;
        }
        size_t second = expression_end(thread, first);
        if (!evaluates_both(code) || is_value_code(thread[second]))
            return (struct due){ at, second };
        at = second;
    }
}

/* What was not replaced is copied in stretches, each up to the next place of the variable. */
struct stretch {
    const uint8_t *thread;
    uint8_t *to;
    size_t from, length, room;
};

static bool copy_to(struct stretch *s, size_t end)
{
    size_t n = end - s->from;
    if (n > s->room - s->length)
        return false;
    memcpy(s->to + s->length, s->thread + s->from, n);
    s->length += n;
    s->from = end;
    return true;
}

static bool put_value(struct stretch *s, const uint8_t *value, size_t length)
{
    if (length > s->room - s->length)
        return false;
    memcpy(s->to + s->length, value, length);
    s->length += length;
    s->from += 2;
    return true;
}

size_t substitute(const uint8_t *thread, size_t *at, const uint8_t *value, size_t length,
                  uint8_t *to, size_t room)
{
    uint16_t waiting[THREAD_ROOM + 2];
    size_t count = 0, p = *at;
    unsigned binders = 0;
    struct stretch s = { thread, to, p, 0, room };

    for (;;) {
        uint8_t code = thread[p];
        if (code == VARIABLE && thread[p + 1] == binders
            && !(copy_to(&s, p) && put_value(&s, value, length)))
            return room + 1;
        p += 1 + (size_t)field_bytes[code];
        if (parts[code] == 0) {
            if (count == 0)
                break;
            binders = waiting[--count];
            continue;
        }
        if (code == IF)
            waiting[count++] = (uint16_t)binders;
        if (parts[code] > 1)
            waiting[count++] = (uint16_t)(binders + (code == LET));
        binders += code == FUNCTION || code == NEW_LOCK;
    }
    if (!copy_to(&s, p))
        return room + 1;
    *at = p;
    return s.length;
}
