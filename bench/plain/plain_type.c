/*
 * Walks over types. A walk needs no stack: after a leaf, the innermost
 * function whose argument has just ended goes on with its set and result, so
 * a count of such functions is enough.
 */
#include <string.h>

#include "plain_type.h"

size_t type_length(const uint8_t *type)
{
    size_t at = 0, arguments = 0;

    for (;;) {
        switch (type[at++]) {
        case TYPE_FUNCTION:
            arguments++;
            continue;
        case TYPE_REF:
            at++;
            continue;
        case TYPE_LOCK:
            at++;
            break;
        }
        if (arguments == 0)
            return at;
        arguments--;
        at += SET_BYTES;
    }
}

bool type_mentions(const uint8_t *type, unsigned level)
{
    size_t at = 0, arguments = 0;

    for (;;) {
        uint8_t code = type[at++];
        if (code == TYPE_FUNCTION) {
            arguments++;
            continue;
        }
        if ((code == TYPE_LOCK || code == TYPE_REF) && type[at++] == level)
            return true;
        if (code == TYPE_REF)
            continue;
        if (arguments == 0)
            return false;
        arguments--;
        if (get_4(type + at) >> level & 1)
            return true;
        at += SET_BYTES;
    }
}

/* Only sets differ between a type and its subtype, so their lengths are equal. */
bool is_subtype(const uint8_t *a, size_t a_length, const uint8_t *b, size_t b_length)
{
    if (a_length != b_length || a[0] != b[0])
        return false;
    if (a_length == 1 || memcmp(a, b, a_length) == 0)
        return true;
    if (a[0] != TYPE_FUNCTION)
        return false;
    size_t argument = type_length(a + 1);
    if (!is_subtype(b + 1, type_length(b + 1), a + 1, argument))
        return false;
    size_t set = 1 + argument, result = set + SET_BYTES;
    if (get_4(a + set) & ~get_4(b + set))
        return false;
    return is_subtype(a + result, a_length - result, b + result, b_length - result);
}
