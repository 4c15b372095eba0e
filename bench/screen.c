/* What the bench shows. It reads the state's bytes as document 01 lays them out; it never writes to them. */
#include <stdio.h>

#include "plain_machine.h"
#include "plain_place.h"
#include "plain_state.h"
#include "screen.h"

enum { ROUND_PLACE = 8, ANSWERS = 25 };

static const char *const words[ANSWERS] = {
    "accepted", "a lent buffer is too short", "under 3 bytes, over 4,096, or the length is untrue", "no such version",
    "no such code where one is due", "the image ends inside an expression", "bytes are left over",
    "nested too deep, too many locks, or a stated type over 256 bytes", "the variable is not bound", "the lock name is not bound",
    "a function's or new cell's own type is over 256 bytes", "this part is not the Function, Ref, Lock or Int due",
    "this part is not the subtype due", "this function's body needs a lock that it does not declare", "this forked body needs a lock",
    "the new lock is in the result type", "the new lock is in the need", "the erased form is over 2,048 bytes", "these bytes are no state",
    "there is no such thread", "the thread is finished", "the thread waits for a held lock", "the thread is stuck",
    "one thread, cell or lock too many", "the thread would pass 2,048 bytes or the cell's value 256"
};

const char *answer_words(unsigned answer)
{
    return answer < ANSWERS ? words[answer] : "no such answer";
}

void show_place(const uint8_t *image, size_t length, size_t place)
{
    size_t from = place > ROUND_PLACE ? place - ROUND_PLACE : 0;
    size_t to = place + ROUND_PLACE < length ? place + ROUND_PLACE : length;
    printf("  bytes from %zu:", from);
    for (size_t i = from; i < to; i++)
        printf(i == place ? " [%02X]" : " %02X", image[i]);
    puts(place < length ? "" : " [end]");
}

/* ---- steps ---- */

static void show_made(unsigned kind, unsigned number)
{
    static const char *const plain[] = { "", "applies", "", "", "", "", "", "", "", "goes into the let", "goes on", "adds", "chooses" };
    switch (kind) {
    case STEP_CELL: printf("makes cell %u\n", number); break;
    case STEP_READ: printf("reads cell %u\n", number); break;
    case STEP_WRITE: printf("writes cell %u\n", number); break;
    case STEP_FORK: printf("forks thread %u\n", number); break;
    case STEP_LOCK: printf("makes lock %u\n", number); break;
    case STEP_TAKE: printf("takes lock %u\n", number); break;
    case STEP_RELEASE: printf("releases lock %u\n", number); break;
    default: puts(kind < sizeof plain / sizeof *plain ? plain[kind] : "does what no step does");
    }
}

void show_step(unsigned thread, struct laverockin_stepped step)
{
    printf("thread %u ", thread);
    if (step.answer == 0)
        show_made(step.kind, step.number);
    else if (step.answer == WAITS)
        printf("waits for lock %u, which is held\n", step.number);
    else
        printf("does not step: %u, %s\n", step.answer, answer_words(step.answer));
}

/* ---- threads ---- */

/* The locks that a thread is inside of, outermost first, and how many they are. */
static size_t held_by(const uint8_t *thread, uint8_t *locks)
{
    size_t count = 0, at = 0;
    if (is_value_code(thread[0]))
        return 0;
    for (size_t due = find_due(thread).at;;) {
        size_t open = thread[at] == OPEN_SECTION, first = at + 1 + open;
        if (open && count < LOCKS_MOST)
            locks[count++] = thread[at + 1];
        if (at == due)
            return count;
        at = is_value_code(thread[first]) ? expression_end(thread, first) : first;
    }
}

static void show_due(const uint8_t *thread, const uint8_t *state)
{
    if (is_value_code(thread[0])) {
        if (thread[0] == NUMBER) printf("is finished with %u\n", get_4(thread + 1));
        else puts("is finished");
        return;
    }
    const uint8_t *due = thread + find_due(thread).at;
    switch (due[0]) {
    case APPLY: puts("is about to apply a function"); break;
    case NEW_CELL: puts("is about to make a cell"); break;
    case READ: due[1] == CELL_AT ? printf("is about to read cell %u\n", due[2]) : printf("is stuck: it reads no cell\n"); break;
    case WRITE: due[1] == CELL_AT ? printf("is about to write cell %u\n", due[2]) : printf("is stuck: it writes no cell\n"); break;
    case FORK: puts("is about to fork a thread"); break;
    case NEW_LOCK: puts("is about to make a lock"); break;
    case SECTION:
        if (due[1] != LOCK_AT) puts("is stuck: its section has no lock");
        else printf(state[MARKS_AT + due[2]] ? "waits for lock %u\n" : "is about to take lock %u\n", due[2]);
        break;
    case OPEN_SECTION: printf("is about to release lock %u\n", due[1]); break;
    case LET: puts("is about to go into a let"); break;
    case THEN: puts("is about to go on"); break;
    case ADD: puts("is about to add"); break;
    case IF: puts("is about to choose"); break;
    default: puts("is stuck");
    }
}

static void show_locks(const uint8_t *state)
{
    for (unsigned lock = 0; lock < state[LOCKS_AT]; lock++) {
        printf("  lock %u is ", lock);
        if (!state[MARKS_AT + lock]) {
            puts("free");
            continue;
        }
        for (unsigned i = 0; i < state[THREADS_AT]; i++) {
            uint8_t locks[LOCKS_MOST];
            size_t count = held_by(state + thread_at(i), locks);
            for (size_t k = 0; k < count; k++)
                if (locks[k] == lock) printf("held by thread %u\n", i);
        }
    }
}

void show_state(const uint8_t *state)
{
    show_locks(state);
    for (unsigned i = 0; i < state[THREADS_AT]; i++) {
        printf("  thread %u ", i);
        show_due(state + thread_at(i), state);
    }
}
