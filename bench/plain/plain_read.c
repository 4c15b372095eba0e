/* The reading: left to right, and the first byte at which something is wrong decides. */
#include <string.h>

#include "plain_read.h"

static bool refuse(struct reading *r, uint32_t answer, size_t place)
{
    r->answer = answer;
    r->place = (uint32_t)place;
    return false;
}

static bool read_bytes(struct reading *r, size_t count)
{
    if (r->n - r->at < count)
        return refuse(r, CUT, r->n);
    r->at += count;
    return true;
}

static bool read_index(struct reading *r, unsigned binders)
{
    if (!read_bytes(r, 1))
        return false;
    if (r->image[r->at - 1] >= binders)
        return refuse(r, VARIABLE_NOT_BOUND, r->at - 1);
    return true;
}

static bool read_name(struct reading *r, unsigned locks)
{
    if (!read_bytes(r, 1))
        return false;
    uint8_t name = r->image[r->at - 1];
    if (name >= locks)
        return refuse(r, LOCK_NOT_BOUND, r->at - 1);
    r->levels[r->at - 1] = (uint8_t)(locks - 1 - name);
    return true;
}

static bool read_set(struct reading *r, unsigned locks)
{
    if (!read_bytes(r, SET_BYTES))
        return false;
    size_t start = r->at - SET_BYTES;
    uint32_t names = get_4(r->image + start), levels = 0;
    if ((uint64_t)names >> locks)
        return refuse(r, LOCK_NOT_BOUND, start);
    for (unsigned level = locks; names; names >>= 1) {
        level--;
        levels |= (names & 1) << level;
    }
    put_4(r->levels + start, levels);
    return true;
}

/*
 * A function's result stands after its argument and set, so the depth of the
 * result waits while the argument is read; at most one waits at each depth.
 */
static bool read_stated_type(struct reading *r, unsigned locks)
{
    uint8_t result_depth[TYPE_NESTING_MOST];
    unsigned waiting = 0, depth = 1;
    size_t start = r->at;

    for (;;) {
        if (r->at == r->n)
            return refuse(r, CUT, r->n);
        uint8_t code = r->image[r->at];
        if (!is_type_code(code))
            return refuse(r, NO_SUCH_CODE, r->at);
        if (depth > TYPE_NESTING_MOST)
            return refuse(r, TOO_DEEP, r->at);
        r->at++;
        depth++;
        if (code == TYPE_FUNCTION) {
            result_depth[waiting++] = (uint8_t)depth;
            continue;
        }
        if ((code == TYPE_LOCK || code == TYPE_REF) && !read_name(r, locks))
            return false;
        if (code == TYPE_REF)
            continue;
        if (waiting == 0)
            break;
        if (!read_set(r, locks))
            return false;
        depth = result_depth[--waiting];
    }
    if (r->at - start > TYPE_MOST)
        return refuse(r, TOO_DEEP, start);
    r->stated[start] = (uint8_t)(r->at - start - 1);
    return true;
}

/* The fields between a code and its first part. */
static bool read_fields(struct reading *r, uint8_t code, unsigned binders, unsigned locks)
{
    switch (code) {
    case NUMBER:
        return read_bytes(r, NUMBER_BYTES);
    case VARIABLE:
        return read_index(r, binders);
    case FUNCTION:
        return read_stated_type(r, locks) && read_set(r, locks);
    case NEW_CELL:
        return read_name(r, locks) && read_stated_type(r, locks);
    case IF:
        return read_stated_type(r, locks);
    default:
        return true;
    }
}

/* Calls itself on every part but the last, which the loop goes on with. */
static bool read_expression(struct reading *r, unsigned depth, unsigned binders, unsigned locks)
{
    for (;; depth++) {
        if (r->at == r->n)
            return refuse(r, CUT, r->n);
        uint8_t code = r->image[r->at];
        if (!is_expression_code(code))
            return refuse(r, NO_SUCH_CODE, r->at);
        if (depth > NESTING_MOST || (code == NEW_LOCK && locks == LOCKS_MOST))
            return refuse(r, TOO_DEEP, r->at);
        r->at++;
        if (!read_fields(r, code, binders, locks))
            return false;
        switch (code) {
        case UNIT: case NUMBER: case VARIABLE:
            return true;
        case NEW_CELL: case READ: case FORK:
            break;
        case NEW_LOCK:
            locks++;
            binders++;
            break;
        case FUNCTION:
            binders++;
            break;
        case IF:
            if (!read_expression(r, depth + 1, binders, locks))
                return false;
            /* fall through */
        default:
            if (!read_expression(r, depth + 1, binders, locks))
                return false;
            binders += code == LET;
        }
    }
}

bool read_image(struct reading *r)
{
    if (r->n < IMAGE_LEAST || r->n > IMAGE_MOST || get_2(r->image) != r->n - 2)
        return refuse(r, BAD_LENGTH, 0);
    if (r->image[VERSION_AT] != VERSION)
        return refuse(r, BAD_VERSION, VERSION_AT);
    memcpy(r->levels, r->image, r->n);
    r->at = ROOT_AT;
    if (!read_expression(r, 1, 0, 0))
        return false;
    if (r->at != r->n)
        return refuse(r, LEFT_OVER, r->at);
    r->answer = ACCEPTED;
    r->place = 0;
    return true;
}
