/*
 * Laverockin for C: the judge, the loads, the step, the race finder, the runs and the lister of document 01, each proved to answer and to leave
 * every buffer exactly as document 01 says, on all input. C11 and C++17; link with libbench.a (x86-64).
 *
 * Every buffer is a pointer and a length in bytes. A null pointer with length 0 is an empty buffer. Buffers of one call must not overlap.
 * Nothing is kept between calls, nothing is allocated, and no call takes more than 64 KiB of stack.
 *
 * Answers (the `answer` of the structs below):
 *    0  accepted, loaded, stepped, looked at
 *    1  a lent buffer is too short: nothing is changed
 *    2  image under 3 bytes, over 4,096, or its length is untrue
 *    3  version                              4  no such code where one is due
 *    5  image ends inside an expression      6  bytes left over
 *    7  expression nested over 64, type over 16, locks over 32, or a stated type over 256 bytes
 *    8  variable not bound                   9  lock name not bound
 *   10  a function's or new cell's own type is over 256 bytes
 *   11  a part is not the Function, Ref, Lock or Int due
 *   12  a part is not the subtype due       13  function body needs an undeclared lock
 *   14  forked body needs a lock            15  lock in the result type
 *   16  lock in the need                    17  erased form is over 2,048 bytes
 *   18  not a state                         19  no such thread
 *   20  thread is finished                  21  thread waits for a held lock
 *   22  thread is stuck                     23  one thread, cell or lock too many
 *   24  a thread would pass 2,048 bytes or a cell value 256
 */
#ifndef LAVEROCKIN_H
#define LAVEROCKIN_H

#include <stddef.h>
#include <stdint.h>

#ifdef __cplusplus
extern "C" {
#endif

enum {
    LAVEROCKIN_TYPE_BYTES = 256,    /* a type buffer has at least these */
    LAVEROCKIN_WORK_BYTES = 40960,  /* a work buffer */
    LAVEROCKIN_STATE_BYTES = 49408  /* a state buffer */
};

/* ---- The calls. Judge, loads, step and race finder answer one number, which the functions below take apart. ---- */

/*
 * Judges an image. types: 256 bytes or more; work: 40,960 or more. Accepted: the type's bytes stand first in types, the rest is untouched;
 * refused: types is untouched. After every answer but 1 the first 40,960 bytes of work are zero and the rest untouched.
 */
uint64_t laverockin_judge(const uint8_t *image, size_t image_length, uint8_t *types, size_t types_length, uint8_t *work, size_t work_length);

/*
 * Loads an image without judging it (1, 2 to 9, 17), or judges it first (1, 2 to 17). state: 49,408 bytes or more. Loaded: all of those are written;
 * refused: state is untouched. The judged load treats work as the judge does.
 */
uint64_t laverockin_raw_load(const uint8_t *image, size_t image_length, uint8_t *state, size_t state_length);
uint64_t laverockin_judged_load(const uint8_t *image, size_t image_length, uint8_t *state, size_t state_length, uint8_t *work, size_t work_length);

/*
 * One step of a thread (0, 1, 18 to 24). Only an answer 0 changes the state. A thread number is 64 bits wide, and none is cut: 256 is no thread 0.
 */
uint64_t laverockin_step(uint8_t *state, size_t state_length, uint64_t thread);

/* The first pair of threads, by the first and then by the second, that are about to read or write one cell (0, 1, 18). Nothing is changed. */
uint64_t laverockin_race(const uint8_t *state, size_t state_length);

/*
 * Steps the threads that the schedule names, one a byte, in turn; every call is made. Writes how many stepped and the last call's answer (0 for an empty
 * schedule) to *steps and *last.
 */
void laverockin_run(uint8_t *state, size_t state_length, const uint8_t *schedule, size_t calls, uint64_t *steps, uint64_t *last);

/*
 * Steps the lowest-numbered thread that can, until none can or `limit` steps are made. The answer is 0, 1 or 18; writes the steps (0 where refused) to *steps.
 */
uint64_t laverockin_default_run(uint8_t *state, size_t state_length, uint64_t limit, uint64_t *steps);

/*
 * The next expression code of an image from the place `at` on (the first is at 3). Answer 0: writes the code, its place and the place where the next is
 * due to *code, *place and *next; at or past the image's end *code and *place are 0 and *next is `at`. Answer 4 or 5: *code is 0, *place that of the refusal and *next
 * `at`.
 */
uint64_t laverockin_next(const uint8_t *image, size_t image_length, size_t at, uint64_t *code, size_t *place, size_t *next);

/* ---- What an answer says. ---- */

/* The judge and the loads. length: of the type, where the judge accepted, else 0. place: of a refusal, else 0. */
struct laverockin_verdict {
    unsigned answer;
    size_t length;
    size_t place;
};

/* The step. kind: 1 apply, 2 cell made, 3 read, 4 write, 5 fork, 6 lock made, 7 take, 8 release, 9 let, 10 then, 11 add, 12 if, where it was made, else 0.
 * number: the cell, the lock or the new thread of the kinds 2 to 8, the lock of answer 21, else 0. */
struct laverockin_stepped {
    unsigned answer;
    unsigned kind;
    unsigned number;
};

/* The race finder. found: 1 where there is a pair; first < second, cell: the pair and what both are about to touch, else 0. */
struct laverockin_pair {
    unsigned answer;
    unsigned found;
    unsigned first;
    unsigned second;
    unsigned cell;
};

/* Bits 0 to 7 the answer, above them the length or the place. */
static inline struct laverockin_verdict laverockin_verdict_of(uint64_t packed)
{
    struct laverockin_verdict v;
    v.answer = (unsigned)(packed & 255);
    v.length = v.answer ? 0 : (size_t)(packed >> 8);
    v.place = v.answer ? (size_t)(packed >> 8) : 0;
    return v;
}

/* Bits 0 to 7 the answer, 8 to 15 the kind, above them the number. */
static inline struct laverockin_stepped laverockin_stepped_of(uint64_t packed)
{
    struct laverockin_stepped s;
    s.answer = (unsigned)(packed & 255);
    s.kind = (unsigned)(packed >> 8 & 255);
    s.number = (unsigned)(packed >> 16);
    return s;
}

/* Bits 0 to 7 the answer, 8 to 15 whether there is a pair, 16 to 23 the first thread, 24 to 31 the second, above them the cell. */
static inline struct laverockin_pair laverockin_pair_of(uint64_t packed)
{
    struct laverockin_pair r;
    r.answer = (unsigned)(packed & 255);
    r.found = (unsigned)(packed >> 8 & 255);
    r.first = (unsigned)(packed >> 16 & 255);
    r.second = (unsigned)(packed >> 24 & 255);
    r.cell = (unsigned)(packed >> 32);
    return r;
}

#ifdef __cplusplus
}
#endif

#endif
