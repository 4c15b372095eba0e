/* Programs are made by what they are to give, Unit or Int, over variables that are numbers, units, locks and cells of numbers. */
#include <string.h>

#include "generate.h"
#include "plain_form.h"

enum { VARIABLES_MOST = 40, LOCKS_MADE_MOST = 6, ONE_WRONG_IN = 60 };

enum gives { A_UNIT, AN_INT, A_LOCK, A_CELL };

static uint64_t seed;
static uint8_t *to;
static size_t length, most;
static unsigned variables, locks;
static struct { enum gives gives; unsigned lock; } variable[VARIABLES_MOST];

void chance_from(uint64_t from)
{
    seed = from * 2 + 1;
}

uint32_t chance(uint32_t n)
{
    seed = seed * 6364136223846793005u + 1442695040888963407u;
    return (uint32_t)(seed >> 33) % n;
}

static void byte(unsigned b)
{
    if (length < most) to[length++] = (uint8_t)b;
}

static void word(uint32_t n)
{
    byte(n >> 24), byte(n >> 16 & 255), byte(n >> 8 & 255), byte(n & 255);
}

/* A variable that gives this, or none: VARIABLES_MOST. */
static unsigned find(enum gives gives)
{
    if (variables == 0) return VARIABLES_MOST;
    unsigned from = chance(variables);
    for (unsigned i = 0; i < variables; i++) {
        unsigned v = (from + i) % variables;
        if (variable[v].gives == gives) return v;
    }
    return VARIABLES_MOST;
}

static unsigned find_lock(unsigned lock)
{
    for (unsigned v = 0; v < variables; v++)
        if (variable[v].gives == A_LOCK && variable[v].lock == lock) return v;
    return VARIABLES_MOST;
}

static void name(unsigned v)
{
    byte(VARIABLE), byte(variables - 1 - v);
}

static void bind(enum gives gives, unsigned lock)
{
    variable[variables].gives = gives;
    variable[variables].lock = lock;
    variables++;
}

static void type_of(enum gives gives)
{
    byte(gives == AN_INT ? TYPE_INT : TYPE_UNIT);
}

static void expression(enum gives gives, unsigned depth);

/* Inside a section on the lock, but for the few that are wrong. */
static void guarded(unsigned lock)
{
    unsigned v = find_lock(lock);
    if (v == VARIABLES_MOST || chance(ONE_WRONG_IN) == 0) return;
    byte(SECTION), name(v);
}

static void touch(enum gives gives, unsigned depth)
{
    unsigned v = find(A_CELL);
    if (v == VARIABLES_MOST) {
        gives == AN_INT ? (byte(NUMBER), word(chance(3))) : byte(UNIT);
        return;
    }
    guarded(variable[v].lock);
    byte(gives == AN_INT ? READ : WRITE), name(v);
    if (gives == A_UNIT) expression(AN_INT, depth);
}

static void with_lock(enum gives gives, unsigned depth)
{
    unsigned before = variables;
    byte(NEW_LOCK), bind(A_LOCK, locks), locks++;
    byte(LET), byte(NEW_CELL), byte(chance(ONE_WRONG_IN) ? 0 : chance(3)), byte(TYPE_INT), expression(AN_INT, 0);
    bind(A_CELL, locks - 1);
    expression(gives, depth);
    variables = before, locks--;
}

static void with_let(enum gives gives, unsigned depth)
{
    enum gives bound = chance(2) ? AN_INT : A_UNIT;
    byte(LET), expression(bound, depth);
    bind(bound, 0);
    expression(gives, depth);
    variables--;
}

static void call(enum gives gives, unsigned depth)
{
    unsigned before = variables;
    byte(APPLY), byte(FUNCTION), byte(TYPE_INT), word(chance(4) ? 0 : chance(1u << (locks < 31 ? locks : 31)));
    bind(AN_INT, 0);
    expression(gives, depth);
    variables = before;
    expression(AN_INT, depth);
}

static void small(enum gives gives)
{
    unsigned v = find(gives);
    if (v != VARIABLES_MOST && chance(3)) name(v);
    else if (gives == AN_INT) byte(NUMBER), word(chance(4) ? chance(3) : chance(1u << 31) * 2 + 1);
    else byte(UNIT);
}

static void choice(enum gives gives, unsigned depth)
{
    byte(IF), type_of(gives), expression(AN_INT, depth), expression(gives, depth), expression(gives, depth);
}

static void expression(enum gives gives, unsigned depth)
{
    if (depth == 0 || variables + 3 > VARIABLES_MOST) {
        small(gives);
        return;
    }
    if (chance(ONE_WRONG_IN) == 0) gives = gives == AN_INT ? A_UNIT : AN_INT;
    depth--;
    switch (chance(9)) {
    case 0: locks < LOCKS_MADE_MOST ? with_lock(gives, depth) : small(gives); break;
    case 1: with_let(gives, depth); break;
    case 2: byte(THEN), expression(A_UNIT, depth), expression(gives, depth); break;
    case 3: choice(gives, depth); break;
    case 4: call(gives, depth); break;
    case 5: gives == AN_INT ? (byte(ADD), expression(AN_INT, depth), expression(AN_INT, depth)) : (byte(FORK), expression(A_UNIT, depth)); break;
    case 6: small(gives); break;
    default: touch(gives, depth);
    }
}

size_t generate(uint8_t *image, size_t room)
{
    to = image, length = 0, most = room, variables = 0, locks = 0;
    byte(0), byte(0), byte(VERSION);
    with_lock(chance(2) ? AN_INT : A_UNIT, 2 + chance(7));
    put_2(image, length - 2);
    return length;
}

size_t damage(uint8_t *bytes, size_t n, size_t room, unsigned times)
{
    while (times-- > 0 && n > 0) {
        size_t at = chance((uint32_t)n);
        switch (chance(4)) {
        case 0: if (n < room) memmove(bytes + at + 1, bytes + at, n - at), bytes[at] = (uint8_t)chance(40), n++; break;
        case 1: memmove(bytes + at, bytes + at + 1, n - at - 1), n--; break;
        case 2: bytes[at] = (uint8_t)chance(256); break;
        default: bytes[at] = (uint8_t)chance(40);
        }
    }
    return n;
}
