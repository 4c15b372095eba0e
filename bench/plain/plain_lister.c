/* The lister: it knows no header, binder or nesting limit, and tells only 4 and 5. */
#include "plain_lister.h"

struct walk {
    const uint8_t *image;
    size_t n;
    size_t at;
    uint32_t answer;
    size_t place;
};

static bool refuse(struct walk *w, uint32_t answer, size_t place)
{
    w->answer = answer;
    w->place = place;
    return false;
}

static bool pass_bytes(struct walk *w, size_t count)
{
    if (w->n - w->at < count)
        return refuse(w, CUT, w->n);
    w->at += count;
    return true;
}

/* Types may nest without limit here; a count of the open arguments does for a stack. */
static bool pass_type(struct walk *w)
{
    size_t arguments = 0;

    for (;;) {
        if (w->at == w->n)
            return refuse(w, CUT, w->n);
        uint8_t code = w->image[w->at];
        if (!is_type_code(code))
            return refuse(w, NO_SUCH_CODE, w->at);
        w->at++;
        if (code == TYPE_FUNCTION) {
            arguments++;
            continue;
        }
        if ((code == TYPE_LOCK || code == TYPE_REF) && !pass_bytes(w, 1))
            return false;
        if (code == TYPE_REF)
            continue;
        if (arguments == 0)
            return true;
        arguments--;
        if (!pass_bytes(w, SET_BYTES))
            return false;
    }
}

static bool pass_fields(struct walk *w, uint8_t code)
{
    switch (code) {
    case NUMBER:
        return pass_bytes(w, NUMBER_BYTES);
    case VARIABLE:
        return pass_bytes(w, 1);
    case FUNCTION:
        return pass_type(w) && pass_bytes(w, SET_BYTES);
    case NEW_CELL:
        return pass_bytes(w, 1) && pass_type(w);
    case IF:
        return pass_type(w);
    default:
        return true;
    }
}

struct plain_listed plain_list(struct plain_reader *reader)
{
    size_t place = reader->at;

    if (place >= reader->n)
        return (struct plain_listed){ LISTED_END, 0, 0 };
    struct walk w = { reader->image, reader->n, place + 1, 0, 0 };
    uint8_t code = reader->image[place];
    if (!is_expression_code(code))
        return (struct plain_listed){ LISTED_REFUSAL, NO_SUCH_CODE, place };
    if (!pass_fields(&w, code))
        return (struct plain_listed){ LISTED_REFUSAL, w.answer, w.place };
    reader->at = w.at;
    return (struct plain_listed){ LISTED_CODE, code, place };
}
