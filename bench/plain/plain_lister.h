/* The lister's reader: an image and the place it has reached, at first ROOT_AT. */
#ifndef PLAIN_LISTER_H
#define PLAIN_LISTER_H

#include "plain_form.h"

struct plain_reader {
    const uint8_t *image;
    size_t n;
    size_t at;
};

enum plain_listed_kind { LISTED_CODE, LISTED_END, LISTED_REFUSAL };

struct plain_listed {
    enum plain_listed_kind kind;
    uint32_t number;        /* the code, or the refusal's number */
    size_t place;
};

/* Moves the reader on only when it gives a code. */
struct plain_listed plain_list(struct plain_reader *reader);

#endif
