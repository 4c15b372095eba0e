/* Fields of a vector line as bytes, and lent buffers whose every byte is watched. */
#ifndef VECTOR_LENT_H
#define VECTOR_LENT_H

#include "plain_form.h"

struct bytes {
    uint8_t *at;            /* exactly n bytes, so that a look past them is seen */
    size_t n;
};

/* How much longer than asked for a lent buffer is. */
enum { LENT_MORE = 101 };

struct bytes from_hex(const char *field);
struct bytes from_sparse(const char *field);
void drop_bytes(struct bytes b);

/* n bytes, none of them zero. */
struct bytes lend(size_t n);

/* The first bytes of `lent` are those of `head`, and the rest is as it was lent. */
bool holds(struct bytes lent, struct bytes head);
bool untouched(struct bytes lent);

/* The first n bytes are zero, and the rest is as it was lent. */
bool zeroed(struct bytes lent, size_t n);

#endif
