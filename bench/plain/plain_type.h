/* Types that were read or worked out: their bytes are known to be whole, names are levels. */
#ifndef PLAIN_TYPE_H
#define PLAIN_TYPE_H

#include "plain_form.h"

/* The length of the type at `type`. */
size_t type_length(const uint8_t *type);

/* Whether the type names the lock of this level, in a name or in a set. */
bool type_mentions(const uint8_t *type, unsigned level);

bool is_subtype(const uint8_t *a, size_t a_length, const uint8_t *b, size_t b_length);

#endif
