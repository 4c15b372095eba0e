/* The codes and limits of document 01, said once for every other file. */
#ifndef PLAIN_FORM_H
#define PLAIN_FORM_H

#include <stdbool.h>
#include <stddef.h>
#include <stdint.h>

enum {
    IMAGE_LEAST = 3, IMAGE_MOST = 4096, VERSION = 1, VERSION_AT = 2, ROOT_AT = 3,
    NESTING_MOST = 64, TYPE_NESTING_MOST = 16, LOCKS_MOST = 32, TYPE_MOST = 256,
    TYPE_BUFFER = 256, WORK_BUFFER = 40960,
    NUMBER_BYTES = 4, SET_BYTES = 4
};

/* Expressions; the last three are only in the running form. */
enum {
    UNIT = 0x01, NUMBER, VARIABLE, FUNCTION, APPLY, NEW_CELL, READ, WRITE,
    FORK, NEW_LOCK, SECTION, LET, THEN, ADD, IF, LOCK_AT, CELL_AT, OPEN_SECTION
};

enum { TYPE_UNIT = 0x20, TYPE_INT, TYPE_LOCK, TYPE_REF, TYPE_FUNCTION };

/* Answers, by their numbers in document 01. */
enum {
    ACCEPTED = 0, SHORT_BUFFER = 1, BAD_LENGTH = 2, BAD_VERSION = 3, NO_SUCH_CODE = 4,
    CUT = 5, LEFT_OVER = 6, TOO_DEEP = 7, VARIABLE_NOT_BOUND = 8, LOCK_NOT_BOUND = 9,
    TYPE_TOO_LONG = 10, WRONG_FORM = 11, NOT_SUBTYPE = 12, BODY_NEEDS = 13, FORK_NEEDS = 14,
    LOCK_IN_TYPE = 15, LOCK_IN_NEED = 16, TOO_LONG_TO_LOAD = 17, NOT_A_STATE = 18,
    NO_SUCH_THREAD = 19, FINISHED = 20, WAITS = 21, STUCK = 22, ONE_TOO_MANY = 23, NO_ROOM = 24
};

static inline bool is_expression_code(uint8_t code)
{
    return (uint8_t)(code - UNIT) <= IF - UNIT;
}

static inline bool is_type_code(uint8_t code)
{
    return (uint8_t)(code - TYPE_UNIT) <= TYPE_FUNCTION - TYPE_UNIT;
}

static inline bool is_value_code(uint8_t code)
{
    const uint32_t values = 1u << UNIT | 1u << NUMBER | 1u << FUNCTION | 1u << LOCK_AT | 1u << CELL_AT;
    return code < 32 && (values >> code & 1);
}

static inline uint32_t get_2(const uint8_t *at)
{
    return (uint32_t)at[0] << 8 | at[1];
}

static inline void put_2(uint8_t *at, size_t n)
{
    at[0] = (uint8_t)(n >> 8);
    at[1] = (uint8_t)n;
}

static inline uint32_t get_4(const uint8_t *at)
{
    return (uint32_t)at[0] << 24 | (uint32_t)at[1] << 16 | (uint32_t)at[2] << 8 | at[3];
}

static inline void put_4(uint8_t *at, uint32_t n)
{
    at[0] = (uint8_t)(n >> 24);
    at[1] = (uint8_t)(n >> 16);
    at[2] = (uint8_t)(n >> 8);
    at[3] = (uint8_t)n;
}

#endif
