/* The typing of an image that has been read, for refusals 10 to 16. */
#ifndef PLAIN_TYPING_H
#define PLAIN_TYPING_H

#include "plain_form.h"

/*
 * How the work buffer is laid out. Types are kept as places in it: stated
 * types stay in the copy of the image, worked-out ones go on a pile. Each
 * nesting holds at most one type of 256 bytes on the pile.
 */
enum {
    WORK_LEVELS = 0,
    WORK_STATED = WORK_LEVELS + IMAGE_MOST,
    WORK_UNIT = WORK_STATED + IMAGE_MOST,
    WORK_INT = WORK_UNIT + 1,
    WORK_PILE = WORK_INT + 1,
    WORK_USED = WORK_PILE + (NESTING_MOST + 1) * TYPE_MOST
};

_Static_assert((int)WORK_USED <= (int)WORK_BUFFER, "the pile fits the work buffer");

struct type {
    uint32_t at;
    uint32_t length;
};

struct judgement {
    struct type type;
    uint32_t need;
};

struct typing {
    uint8_t *work;
    uint32_t at;            /* the expression due */
    uint32_t top;           /* the first free byte of the pile */
    uint32_t answer;
    uint32_t place;
    struct type binder[NESTING_MOST];   /* outermost first */
};

/* False when refused; answer and place then say why. */
bool type_image(struct typing *t, struct judgement *whole);

#endif
