/*
 * One rule of document 01 a function. A rule starts with t->at on the first
 * byte after the code, and leaves it after the last part.
 */
#include <string.h>

#include "plain_type.h"
#include "plain_typing.h"

static bool judge_part(struct typing *t, unsigned binders, unsigned locks, struct judgement *out);

static bool refuse(struct typing *t, uint32_t answer, uint32_t place)
{
    t->answer = answer;
    t->place = place;
    return false;
}

static const uint8_t *bytes(const struct typing *t, struct type type)
{
    return t->work + type.at;
}

static struct type stated_type(struct typing *t)
{
    struct type type = { t->at, t->work[WORK_STATED + t->at] + 1u };
    t->at += type.length;
    return type;
}

static void give_unit(struct judgement *out)
{
    out->type = (struct type){ WORK_UNIT, 1 };
}

static bool subtype(const struct typing *t, struct type a, struct type b)
{
    return is_subtype(bytes(t, a), a.length, bytes(t, b), b.length);
}

/* Takes everything above `mark` off the pile but the type that is given on. */
static void settle(struct typing *t, uint32_t mark, struct judgement *out)
{
    t->top = mark;
    if (out->type.at < mark)
        return;
    memmove(t->work + mark, t->work + out->type.at, out->type.length);
    out->type.at = mark;
    t->top += out->type.length;
}

/* A part that must have a type of this form: 11 as soon as it is judged. */
static bool judge_form(struct typing *t, unsigned binders, unsigned locks, uint8_t form,
                       struct judgement *out)
{
    uint32_t place = t->at;
    if (!judge_part(t, binders, locks, out))
        return false;
    if (bytes(t, out->type)[0] != form)
        return refuse(t, WRONG_FORM, place);
    return true;
}

/* A part that must have a subtype of `due`: 12 as soon as it is judged. Its need is added. */
static bool judge_subtype(struct typing *t, unsigned binders, unsigned locks, struct type due,
                          uint32_t *need)
{
    struct judgement part;
    uint32_t place = t->at;
    if (!judge_part(t, binders, locks, &part))
        return false;
    if (!subtype(t, part.type, due))
        return refuse(t, NOT_SUBTYPE, place);
    *need |= part.need;
    return true;
}

static bool judge_function(struct typing *t, unsigned binders, unsigned locks, struct judgement *out)
{
    uint32_t code = t->at - 1, mark = t->top;
    struct type argument = stated_type(t);
    uint32_t set = get_4(t->work + t->at), head = 1 + argument.length + SET_BYTES;

    t->at += SET_BYTES;
    t->binder[binders] = argument;
    if (!judge_part(t, binders + 1, locks, out))
        return false;
    if (out->need & ~set)
        return refuse(t, BODY_NEEDS, code);
    if (head + out->type.length > TYPE_MOST)
        return refuse(t, TYPE_TOO_LONG, code);
    memmove(t->work + mark + head, bytes(t, out->type), out->type.length);
    memcpy(t->work + mark + 1, bytes(t, argument), head - 1);
    t->work[mark] = TYPE_FUNCTION;
    out->type = (struct type){ mark, head + out->type.length };
    out->need = 0;
    t->top = mark + out->type.length;
    return true;
}

static bool judge_apply(struct typing *t, unsigned binders, unsigned locks, struct judgement *out)
{
    uint32_t mark = t->top;
    if (!judge_form(t, binders, locks, TYPE_FUNCTION, out))
        return false;
    struct type function = out->type, argument = { function.at + 1, 0 };
    argument.length = (uint32_t)type_length(bytes(t, argument));
    if (!judge_subtype(t, binders, locks, argument, &out->need))
        return false;
    uint32_t head = 1 + argument.length + SET_BYTES;
    out->need |= get_4(bytes(t, function) + head - SET_BYTES);
    out->type = (struct type){ function.at + head, function.length - head };
    settle(t, mark, out);
    return true;
}

/* Name and stated type stand as a Ref's do, so the code becomes Ref's and the type is there. */
static bool judge_new_cell(struct typing *t, unsigned binders, unsigned locks, struct judgement *out)
{
    uint32_t code = t->at - 1, mark = t->top;
    t->at++;
    struct type content = stated_type(t);
    out->need = 0;
    if (!judge_subtype(t, binders, locks, content, &out->need))
        return false;
    if (2 + content.length > TYPE_MOST)
        return refuse(t, TYPE_TOO_LONG, code);
    t->work[code] = TYPE_REF;
    out->type = (struct type){ code, 2 + content.length };
    t->top = mark;
    return true;
}

/* The content of the Ref at hand, whose lock the need gains. */
static struct type content_of(const struct typing *t, struct judgement *out)
{
    out->need |= 1u << bytes(t, out->type)[1];
    return (struct type){ out->type.at + 2, out->type.length - 2 };
}

static bool judge_read(struct typing *t, unsigned binders, unsigned locks, struct judgement *out)
{
    uint32_t mark = t->top;
    if (!judge_form(t, binders, locks, TYPE_REF, out))
        return false;
    out->type = content_of(t, out);
    settle(t, mark, out);
    return true;
}

static bool judge_write(struct typing *t, unsigned binders, unsigned locks, struct judgement *out)
{
    uint32_t mark = t->top;
    if (!judge_form(t, binders, locks, TYPE_REF, out))
        return false;
    if (!judge_subtype(t, binders, locks, content_of(t, out), &out->need))
        return false;
    give_unit(out);
    t->top = mark;
    return true;
}

static bool judge_fork(struct typing *t, unsigned binders, unsigned locks, struct judgement *out)
{
    uint32_t code = t->at - 1, mark = t->top;
    if (!judge_part(t, binders, locks, out))
        return false;
    if (out->need)
        return refuse(t, FORK_NEEDS, code);
    give_unit(out);
    t->top = mark;
    return true;
}

static bool judge_new_lock(struct typing *t, unsigned binders, unsigned locks, struct judgement *out)
{
    uint32_t code = t->at - 1, mark = t->top;
    t->work[mark] = TYPE_LOCK;
    t->work[mark + 1] = (uint8_t)locks;
    t->binder[binders] = (struct type){ mark, 2 };
    t->top += 2;
    if (!judge_part(t, binders + 1, locks + 1, out))
        return false;
    if (type_mentions(bytes(t, out->type), locks))
        return refuse(t, LOCK_IN_TYPE, code);
    if (out->need >> locks & 1)
        return refuse(t, LOCK_IN_NEED, code);
    settle(t, mark, out);
    return true;
}

static bool judge_section(struct typing *t, unsigned binders, unsigned locks, struct judgement *out)
{
    uint32_t mark = t->top;
    if (!judge_form(t, binders, locks, TYPE_LOCK, out))
        return false;
    uint32_t first_need = out->need, held = 1u << bytes(t, out->type)[1];
    t->top = mark;
    if (!judge_part(t, binders, locks, out))
        return false;
    out->need = first_need | (out->need & ~held);
    return true;
}

static bool judge_let(struct typing *t, unsigned binders, unsigned locks, struct judgement *out)
{
    uint32_t mark = t->top;
    if (!judge_part(t, binders, locks, out))
        return false;
    uint32_t first_need = out->need;
    t->binder[binders] = out->type;
    if (!judge_part(t, binders + 1, locks, out))
        return false;
    out->need |= first_need;
    settle(t, mark, out);
    return true;
}

static bool judge_then(struct typing *t, unsigned binders, unsigned locks, struct judgement *out)
{
    uint32_t mark = t->top;
    if (!judge_part(t, binders, locks, out))
        return false;
    uint32_t first_need = out->need;
    t->top = mark;
    if (!judge_part(t, binders, locks, out))
        return false;
    out->need |= first_need;
    return true;
}

static bool judge_add(struct typing *t, unsigned binders, unsigned locks, struct judgement *out)
{
    uint32_t mark = t->top;
    if (!judge_form(t, binders, locks, TYPE_INT, out))
        return false;
    uint32_t first_need = out->need;
    t->top = mark;
    if (!judge_form(t, binders, locks, TYPE_INT, out))
        return false;
    *out = (struct judgement){ { WORK_INT, 1 }, first_need | out->need };
    t->top = mark;
    return true;
}

static bool judge_if(struct typing *t, unsigned binders, unsigned locks, struct judgement *out)
{
    uint32_t mark = t->top;
    struct type result = stated_type(t);
    if (!judge_form(t, binders, locks, TYPE_INT, out))
        return false;
    t->top = mark;
    for (int branch = 0; branch < 2; branch++) {
        if (!judge_subtype(t, binders, locks, result, &out->need))
            return false;
        t->top = mark;
    }
    out->type = result;
    return true;
}

static bool judge_part(struct typing *t, unsigned binders, unsigned locks, struct judgement *out)
{
    switch (t->work[WORK_LEVELS + t->at++]) {
    case FUNCTION: return judge_function(t, binders, locks, out);
    case APPLY: return judge_apply(t, binders, locks, out);
    case NEW_CELL: return judge_new_cell(t, binders, locks, out);
    case READ: return judge_read(t, binders, locks, out);
    case WRITE: return judge_write(t, binders, locks, out);
    case FORK: return judge_fork(t, binders, locks, out);
    case NEW_LOCK: return judge_new_lock(t, binders, locks, out);
    case SECTION: return judge_section(t, binders, locks, out);
    case LET: return judge_let(t, binders, locks, out);
    case THEN: return judge_then(t, binders, locks, out);
    case ADD: return judge_add(t, binders, locks, out);
    case IF: return judge_if(t, binders, locks, out);
    case NUMBER:
        t->at += NUMBER_BYTES;
        *out = (struct judgement){ { WORK_INT, 1 }, 0 };
        return true;
    case VARIABLE:
        *out = (struct judgement){ t->binder[binders - 1 - t->work[t->at++]], 0 };
        return true;
    default:
        *out = (struct judgement){ { WORK_UNIT, 1 }, 0 };
        return true;
    }
}

bool type_image(struct typing *t, struct judgement *whole)
{
    t->work[WORK_UNIT] = TYPE_UNIT;
    t->work[WORK_INT] = TYPE_INT;
    t->at = ROOT_AT;
    t->top = WORK_PILE;
    return judge_part(t, 0, 0, whole);
}
