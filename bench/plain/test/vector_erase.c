/* A plain recursive eraser, so that the loads are not compared with themselves. */
#include <stdlib.h>
#include <string.h>

#include "plain_state.h"
#include "vector_erase.h"

static const uint8_t *past_type(const uint8_t *at)
{
    switch (*at) {
    case TYPE_LOCK: return at + 2;
    case TYPE_REF: return past_type(at + 2);
    case TYPE_FUNCTION: return past_type(past_type(at + 1) + SET_BYTES);
    default: return at + 1;
    }
}

static const uint8_t *keep(const uint8_t *at, size_t n, uint8_t **to)
{
    memcpy(*to, at, n);
    *to += n;
    return at + n;
}

static const uint8_t *erase_one(const uint8_t *at, uint8_t **to)
{
    uint8_t code = *at;
    int parts = 2;

    at = keep(at, 1, to);
    switch (code) {
    case UNIT: return at;
    case NUMBER: return keep(at, 4, to);
    case VARIABLE: return keep(at, 1, to);
    case FUNCTION: at = past_type(at) + SET_BYTES; parts = 1; break;
    case NEW_CELL: at = past_type(at + 1); parts = 1; break;
    case READ: case FORK: case NEW_LOCK: parts = 1; break;
    case IF: at = past_type(at); parts = 3; break;
    }
    for (; parts; parts--)
        at = erase_one(at, to);
    return at;
}

struct bytes state_due(struct bytes image)
{
    uint8_t erased[IMAGE_MOST], *end = erased;
    struct bytes state = { calloc(STATE_BYTES, 1), STATE_BYTES };

    erase_one(image.at + ROOT_AT, &end);
    size_t n = (size_t)(end - erased);
    if (!state.at || n > THREAD_ROOM)
        exit(2);
    memcpy(state.at, (const uint8_t[]){ 0xC0, 0xFE, 1, 1 }, 4);
    state.at[38] = (uint8_t)(n >> 8);
    state.at[39] = (uint8_t)n;
    memcpy(state.at + 256, erased, n);
    return state;
}
