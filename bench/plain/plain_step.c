/* One step of one thread of bytes known to be a state. */
#include <string.h>

#include "plain_machine.h"
#include "plain_place.h"

/* A thread about to step. */
struct stepping {
    uint8_t *state;
    uint8_t *thread;
    uint8_t *length_at;
    size_t length;
    struct due due;
};

static struct plain_stepped refused(uint32_t answer)
{
    return (struct plain_stepped){ answer, 0, 0 };
}

static struct plain_stepped stepped(uint32_t kind, uint32_t number)
{
    return (struct plain_stepped){ ACCEPTED, kind, number };
}

static bool fits(const struct stepping *s, size_t from, size_t to, size_t n)
{
    return s->length - (to - from) + n <= THREAD_ROOM;
}

/* Puts n bytes from outside the thread for its bytes from..to; what falls free is zeroed. */
static void replace(struct stepping *s, size_t from, size_t to, const uint8_t *bytes, size_t n)
{
    size_t length = s->length - (to - from) + n;

    memmove(s->thread + from + n, s->thread + to, s->length - to);
    memcpy(s->thread + from, bytes, n);
    if (length < s->length)
        memset(s->thread + length, 0, s->length - length);
    s->length = length;
    put_2(s->length_at, length);
}

static void drop(struct stepping *s, size_t from, size_t to)
{
    replace(s, from, to, (const uint8_t *)"", 0);
}

static void set_cell(uint8_t *state, size_t cell, const uint8_t *value, size_t n)
{
    uint8_t *slot = state + cell_at(cell);
    memcpy(slot, value, n);
    memset(slot + n, 0, CELL_ROOM - n);
    put_2(state + cell_length_at(cell), n);
}

static struct plain_stepped step_apply(struct stepping *s)
{
    uint8_t body[THREAD_ROOM];
    size_t at = s->due.at, first = at + 1, second = s->due.second;

    if (s->thread[first] != FUNCTION)
        return refused(STUCK);
    size_t end = expression_end(s->thread, second), inside = first + 1;
    size_t n = substitute(s->thread, &inside, s->thread + second, end - second, body, THREAD_ROOM);
    if (n > THREAD_ROOM || !fits(s, at, end, n))
        return refused(NO_ROOM);
    replace(s, at, end, body, n);
    return stepped(STEP_APPLY, 0);
}

static struct plain_stepped step_new_cell(struct stepping *s)
{
    uint8_t cell = s->state[CELLS_AT];
    size_t at = s->due.at, value = at + 1, end = s->due.second;

    if (cell == CELLS_MOST)
        return refused(ONE_TOO_MANY);
    if (end - value > CELL_ROOM)
        return refused(NO_ROOM);
    set_cell(s->state, cell, s->thread + value, end - value);
    s->state[CELLS_AT]++;
    replace(s, at, end, (const uint8_t[]){ CELL_AT, cell }, 2);
    return stepped(STEP_CELL, cell);
}

static struct plain_stepped step_read(struct stepping *s)
{
    size_t at = s->due.at, end = s->due.second;

    if (s->thread[at + 1] != CELL_AT)
        return refused(STUCK);
    uint8_t cell = s->thread[at + 2];
    size_t n = get_2(s->state + cell_length_at(cell));
    if (!fits(s, at, end, n))
        return refused(NO_ROOM);
    replace(s, at, end, s->state + cell_at(cell), n);
    return stepped(STEP_READ, cell);
}

static struct plain_stepped step_write(struct stepping *s)
{
    size_t at = s->due.at, value = s->due.second;

    if (s->thread[at + 1] != CELL_AT)
        return refused(STUCK);
    uint8_t cell = s->thread[at + 2];
    size_t end = expression_end(s->thread, value);
    if (end - value > CELL_ROOM)
        return refused(NO_ROOM);
    set_cell(s->state, cell, s->thread + value, end - value);
    replace(s, at, end, (const uint8_t[]){ UNIT }, 1);
    return stepped(STEP_WRITE, cell);
}

static struct plain_stepped step_fork(struct stepping *s)
{
    uint8_t thread = s->state[THREADS_AT];
    size_t at = s->due.at, body = at + 1;

    if (thread == THREADS_MOST)
        return refused(ONE_TOO_MANY);
    size_t end = expression_end(s->thread, body);
    memcpy(s->state + thread_at(thread), s->thread + body, end - body);
    put_2(s->state + thread_length_at(thread), end - body);
    s->state[THREADS_AT]++;
    replace(s, at, end, (const uint8_t[]){ UNIT }, 1);
    return stepped(STEP_FORK, thread);
}

/* A location is as long as the variable it stands for, so there is always room. */
static struct plain_stepped step_new_lock(struct stepping *s)
{
    uint8_t body[THREAD_ROOM], lock = s->state[LOCKS_AT];
    const uint8_t location[] = { LOCK_AT, lock };
    size_t at = s->due.at, end = at + 1;

    if (lock == LOCKS_MOST)
        return refused(ONE_TOO_MANY);
    size_t n = substitute(s->thread, &end, location, sizeof location, body, THREAD_ROOM);
    s->state[LOCKS_AT]++;
    replace(s, at, end, body, n);
    return stepped(STEP_LOCK, lock);
}

static struct plain_stepped step_take(struct stepping *s)
{
    size_t at = s->due.at;

    if (s->thread[at + 1] != LOCK_AT)
        return refused(STUCK);
    uint8_t lock = s->thread[at + 2], *mark = s->state + MARKS_AT + lock;
    if (*mark)
        return (struct plain_stepped){ WAITS, 0, lock };
    *mark = 1;
    replace(s, at, s->due.second, (const uint8_t[]){ OPEN_SECTION, lock }, 2);
    return stepped(STEP_TAKE, lock);
}

static struct plain_stepped step_release(struct stepping *s)
{
    size_t at = s->due.at;
    uint8_t lock = s->thread[at + 1];

    s->state[MARKS_AT + lock] = 0;
    drop(s, at, at + 2);
    return stepped(STEP_RELEASE, lock);
}

static struct plain_stepped step_let(struct stepping *s)
{
    uint8_t body[THREAD_ROOM];
    size_t at = s->due.at, value = at + 1, end = s->due.second;
    size_t n = substitute(s->thread, &end, s->thread + value, end - value, body, THREAD_ROOM);

    if (n > THREAD_ROOM || !fits(s, at, end, n))
        return refused(NO_ROOM);
    replace(s, at, end, body, n);
    return stepped(STEP_LET, 0);
}

static struct plain_stepped step_then(struct stepping *s)
{
    drop(s, s->due.at, s->due.second);
    return stepped(STEP_THEN, 0);
}

static struct plain_stepped step_add(struct stepping *s)
{
    size_t at = s->due.at, first = at + 1, second = s->due.second;
    uint8_t sum[1 + NUMBER_BYTES] = { NUMBER };

    if (s->thread[first] != NUMBER || s->thread[second] != NUMBER)
        return refused(STUCK);
    put_4(sum + 1, get_4(s->thread + first + 1) + get_4(s->thread + second + 1));
    replace(s, at, second + sizeof sum, sum, sizeof sum);
    return stepped(STEP_ADD, 0);
}

static struct plain_stepped step_if(struct stepping *s)
{
    size_t at = s->due.at, branch = s->due.second;

    if (s->thread[at + 1] != NUMBER)
        return refused(STUCK);
    size_t other = expression_end(s->thread, branch);
    if (get_4(s->thread + at + 2) == 0) {
        drop(s, at, other);
    } else {
        drop(s, other, expression_end(s->thread, other));
        drop(s, at, branch);
    }
    return stepped(STEP_IF, 0);
}

struct plain_stepped step_known(uint8_t *state, uint64_t thread)
{
    if (thread >= state[THREADS_AT])
        return refused(NO_SUCH_THREAD);
    struct stepping s = { .state = state, .thread = state + thread_at((size_t)thread),
                          .length_at = state + thread_length_at((size_t)thread) };
    if (is_value_code(s.thread[0]))
        return refused(FINISHED);
    s.length = get_2(s.length_at);
    s.due = find_due(s.thread);
    switch (s.thread[s.due.at]) {
    case APPLY: return step_apply(&s);
    case NEW_CELL: return step_new_cell(&s);
    case READ: return step_read(&s);
    case WRITE: return step_write(&s);
    case FORK: return step_fork(&s);
    case NEW_LOCK: return step_new_lock(&s);
    case SECTION: return step_take(&s);
    case OPEN_SECTION: return step_release(&s);
    case LET: return step_let(&s);
    case THEN: return step_then(&s);
    case ADD: return step_add(&s);
    default: return step_if(&s);
    }
}
