/* Task programs by chance: most of them right, some with an access out of its section or a part of another type, some damaged. */
#ifndef GENERATE_H
#define GENERATE_H

#include <stddef.h>
#include <stdint.h>

void chance_from(uint64_t seed);

/* Below n. */
uint32_t chance(uint32_t n);

/* An image of at most `room` bytes; the answer is its length. */
size_t generate(uint8_t *image, size_t room);

/* A byte changed, put in or left out, `times` times, in `length` of `room` bytes; the answer is the length after it. */
size_t damage(uint8_t *bytes, size_t length, size_t room, unsigned times);

#endif
