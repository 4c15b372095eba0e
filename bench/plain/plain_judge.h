/* The judge of document 01. */
#ifndef PLAIN_JUDGE_H
#define PLAIN_JUDGE_H

#include "plain_form.h"

struct plain_judged {
    uint32_t answer;        /* 0 accepted, or the refusal's number */
    uint32_t place;
    uint32_t length;        /* accepted: how many bytes of the type buffer hold the type */
};

struct plain_judged plain_judge(const uint8_t *image, size_t n, uint8_t *type, size_t type_n,
                                uint8_t *work, size_t work_n);

/*
 * The same where the type itself is not wanted. `work` has WORK_BUFFER bytes
 * and is zero afterwards.
 */
struct plain_judged judge_only(const uint8_t *image, size_t n, uint8_t *work);

#endif
