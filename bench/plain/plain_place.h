/*
 * Where evaluation goes in a thread, and what stands there. The thread is
 * known to be one closed expression, so these look at no length.
 */
#ifndef PLAIN_PLACE_H
#define PLAIN_PLACE_H

#include "plain_form.h"

/* The place due: its code, and where its first part, evaluated if it has to be, ends. */
struct due {
    size_t at;
    size_t second;
};

size_t expression_end(const uint8_t *thread, size_t at);

/* For a thread that is no value. */
struct due find_due(const uint8_t *thread);

/*
 * Writes the expression at *at with the closed value for the variable bound
 * just outside it, and moves *at past it. The answer is over `room` when the
 * outcome is; then *at stays.
 */
size_t substitute(const uint8_t *thread, size_t *at, const uint8_t *value, size_t length,
                  uint8_t *to, size_t room);

#endif
