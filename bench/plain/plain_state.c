/* Is it a state? A state has no nesting limit, so nothing here calls itself. */
#include "plain_state.h"

/* What a slot's expression may name, and the open sections met so far, a bit a lock. */
struct bounds {
    unsigned cells;
    unsigned locks;
    uint32_t open;
};

static bool all_zero(const uint8_t *at, size_t n)
{
    uint8_t seen = 0;
    for (size_t i = 0; i < n; i++)
        seen |= at[i];
    return seen == 0;
}

/* A part that is still to come: how many binders stand over it, and whether evaluation goes there. */
static uint16_t part(unsigned binders, bool path)
{
    return (uint16_t)(binders << 1 | path);
}

static bool open_section(struct bounds *b, unsigned lock)
{
    if (lock >= b->locks || (b->open >> lock & 1))
        return false;
    b->open |= 1u << lock;
    return true;
}

/* Whether a leaf may have this byte after its code; unit and number take any. */
static bool leaf_holds(uint8_t code, uint8_t next, unsigned binders, const struct bounds *b)
{
    switch (code) {
    case VARIABLE: return next < binders;
    case LOCK_AT: return next < b->locks;
    case CELL_AT: return next < b->cells;
    default: return true;
    }
}

/*
 * Whether the n bytes (at most THREAD_ROOM) are one closed expression, open
 * sections only where evaluation goes. Every waiting part takes a byte, so no
 * more wait than there are bytes; a field past the end leaves p over n.
 */
static bool fills(const uint8_t *s, size_t n, struct bounds *b)
{
    uint16_t waiting[THREAD_ROOM + 2];
    size_t count = 0, p = 0;
    unsigned binders = 0;
    bool path = true;

    for (;;) {
        if (p + count >= n)
            return false;
        uint8_t code = s[p++], next = p < n ? s[p] : 0;
        switch (code) {
        case UNIT: case NUMBER: case VARIABLE: case LOCK_AT: case CELL_AT:
            if (!leaf_holds(code, next, binders, b))
                return false;
            p += code == UNIT ? 0 : code == NUMBER ? NUMBER_BYTES : 1;
            if (count == 0)
                return p == n;
            count--;
            binders = waiting[count] >> 1;
            path = waiting[count] & 1;
            continue;
        case FUNCTION: case NEW_LOCK: case FORK:
            binders += code != FORK;
            path = false;
            continue;
        case NEW_CELL: case READ:
            continue;
        case OPEN_SECTION:
            if (!path || p++ == n || !open_section(b, next))
                return false;
            continue;
        case IF:
            waiting[count++] = part(binders, false);
            /* fall through */
        case SECTION: case THEN:
            waiting[count++] = part(binders, false);
            continue;
        case LET:
            waiting[count++] = part(binders + 1, false);
            continue;
        case APPLY: case WRITE: case ADD:
            waiting[count++] = part(binders, path && is_value_code(next));
            continue;
        default:
            return false;
        }
    }
}

static bool slot_holds(const uint8_t *slot, size_t length, size_t room, struct bounds *b)
{
    return length <= room && fills(slot, length, b) && all_zero(slot + length, room - length);
}

static bool threads_hold(const uint8_t *state, struct bounds *b)
{
    size_t used = state[THREADS_AT];
    for (size_t i = 0; i < used; i++)
        if (!slot_holds(state + thread_at(i), get_2(state + thread_length_at(i)), THREAD_ROOM, b))
            return false;
    return all_zero(state + thread_at(used), (THREADS_MOST - used) * THREAD_ROOM)
        && all_zero(state + thread_length_at(used), (THREADS_MOST - used) * 2);
}

static bool cells_hold(const uint8_t *state, struct bounds *b)
{
    size_t used = state[CELLS_AT];
    for (size_t j = 0; j < used; j++) {
        const uint8_t *slot = state + cell_at(j);
        if (!is_value_code(slot[0])
            || !slot_holds(slot, get_2(state + cell_length_at(j)), CELL_ROOM, b))
            return false;
    }
    return all_zero(state + cell_at(used), (CELLS_MOST - used) * CELL_ROOM)
        && all_zero(state + cell_length_at(used), (CELLS_MOST - used) * 2);
}

/* Marks stand for the open sections found, one a lock. */
static bool marks_hold(const uint8_t *state, uint32_t open)
{
    for (size_t lock = 0; lock < LOCKS_MOST; lock++)
        if (state[MARKS_AT + lock] != (open >> lock & 1))
            return false;
    return true;
}

bool is_state(const uint8_t *state)
{
    struct bounds b = { state[CELLS_AT], state[LOCKS_AT], 0 };

    return get_2(state) == STATE_FOLLOW && state[VERSION_AT] == VERSION
        && state[THREADS_AT] >= 1 && state[THREADS_AT] <= THREADS_MOST
        && b.cells <= CELLS_MOST && b.locks <= LOCKS_MOST
        && all_zero(state + GAP_AT, FIRST_THREAD_AT - GAP_AT)
        && threads_hold(state, &b) && cells_hold(state, &b) && marks_hold(state, b.open);
}

uint32_t state_answer(const uint8_t *state, size_t n)
{
    if (n < STATE_BYTES)
        return SHORT_BUFFER;
    return is_state(state) ? ACCEPTED : NOT_A_STATE;
}
