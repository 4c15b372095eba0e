/*
 * The one reading of an image's bytes, for refusals 2 to 9.
 *
 * It leaves a copy of the image in which every lock name is a level (the
 * outermost new lock is level 0) and every set a set of levels. A level means
 * the same lock wherever it stands, so no type or need is ever raised or
 * lowered afterwards, and equal types are equal bytes.
 */
#ifndef PLAIN_READ_H
#define PLAIN_READ_H

#include "plain_form.h"

struct reading {
    const uint8_t *image;
    size_t n;
    size_t at;
    uint8_t *levels;        /* IMAGE_MOST bytes: the copy */
    uint8_t *stated;        /* IMAGE_MOST bytes: where a stated type starts, its length less one */
    uint32_t answer;
    uint32_t place;
};

/* False when refused; answer and place then say why. */
bool read_image(struct reading *r);

#endif
