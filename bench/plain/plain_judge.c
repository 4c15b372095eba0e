/* The judge: the reading, then the typing, over the lent work buffer. */
#include <string.h>

#include "plain_judge.h"
#include "plain_read.h"
#include "plain_typing.h"

/* Leaves the work buffer as it is, so that the type can be taken out of it. */
static struct plain_judged judge_in(const uint8_t *image, size_t n, uint8_t *work, struct type *type)
{
    struct reading r = { .image = image, .n = n,
                         .levels = work + WORK_LEVELS, .stated = work + WORK_STATED };
    struct typing t;
    struct judgement whole;

    if (!read_image(&r))
        return (struct plain_judged){ r.answer, r.place, 0 };
    t.work = work;
    if (!type_image(&t, &whole))
        return (struct plain_judged){ t.answer, t.place, 0 };
    *type = whole.type;
    return (struct plain_judged){ ACCEPTED, 0, whole.type.length };
}

struct plain_judged judge_only(const uint8_t *image, size_t n, uint8_t *work)
{
    struct type type;
    struct plain_judged judged = judge_in(image, n, work, &type);
    memset(work, 0, WORK_BUFFER);
    return judged;
}

/* At the root no lock is bound, so the type holds no name and its levels need no turning back. */
struct plain_judged plain_judge(const uint8_t *image, size_t n, uint8_t *type, size_t type_n,
                                uint8_t *work, size_t work_n)
{
    struct type found;
    struct plain_judged judged;

    if (type_n < TYPE_BUFFER || work_n < WORK_BUFFER)
        return (struct plain_judged){ SHORT_BUFFER, 0, 0 };
    judged = judge_in(image, n, work, &found);
    if (judged.answer == ACCEPTED)
        memcpy(type, work + found.at, found.length);
    memset(work, 0, WORK_BUFFER);
    return judged;
}
