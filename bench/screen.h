/* What the bench shows: answers in words, the bytes round a place, and what each thread holds and is about to do. */
#ifndef SCREEN_H
#define SCREEN_H

#include <stddef.h>
#include <stdint.h>

#include "laverockin.h"

const char *answer_words(unsigned answer);

/* The bytes of an image round a place, which is marked. */
void show_place(const uint8_t *image, size_t length, size_t place);

/* The step that a thread made. */
void show_step(unsigned thread, struct laverockin_stepped step);

/* Every lock with its holder, and every thread with what it is about to do. The buffer holds a state. */
void show_state(const uint8_t *state);

#endif
