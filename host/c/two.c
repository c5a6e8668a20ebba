/*
 * A host that keeps two tables at once: in turns, from two threads, and each handed from one thread to the other in the
 * middle. All replies, and the tables in the end, are those of a run alone. The threads have as much stack as the
 * header asks for, and end a namespace with a chain of others to the deepest level below it.
 */
#define _POSIX_C_SOURCE 200809L
#include "check.h"
#include <pthread.h>

#define CALLS 4000

/* A table, the numbers from which its calls are drawn, and what it was told. */
struct run {
    struct lampfunnel_table table;
    uint32_t random;
    int made;
    struct lampfunnel_reply replies[CALLS];
};

static uint32_t below(struct run *run, uint32_t bound) {
    run->random ^= run->random << 13;
    run->random ^= run->random >> 17;
    run->random ^= run->random << 5;
    return run->random % bound;
}

/* Low slots, births and the number 1 come up more often, so that the table stays full enough to be wrong about. */
static void make_one(struct run *run) {
    static const uint8_t others[] = {LAMPFUNNEL_CLONE, LAMPFUNNEL_CLONE_NEW, LAMPFUNNEL_SETNS, LAMPFUNNEL_WAIT};
    uint32_t caller = below(run, 1 + below(run, 66)), draw = below(run, 40);
    uint32_t number = 1 + draw;
    int32_t a = below(run, 2) ? 1 : (int32_t)below(run, 100) - 2, b = (int32_t)below(run, 33);
    if (draw >= 12) {
        number = others[draw % 4];
    }
    run->replies[run->made++] = lampfunnel_call(&run->table, caller, request(number, a, b, 0));
}

static void make(struct run *run, int calls) {
    while (calls-- > 0) {
        make_one(run);
    }
}

/* The start of a run: a chain of namespaces to a level, so that two runs differ from the first call on. */
static void start(struct run *run, uint32_t level) {
    run->table = full_chain(level);
    run->random = 2463534242u + level;
    run->made = 0;
}

static void check_same(const struct run *a, const struct run *b) {
    CHECK(a->made == CALLS && b->made == CALLS && same_tables(&a->table, &b->table));
    for (int k = 0; k < CALLS; k++) {
        CHECK(same_replies(a->replies[k], b->replies[k]));
    }
}

/* ---- the runs --------------------------------------------------------------------------------------------------- */

static struct run alone[2], kept[2];
static pthread_barrier_t middle;

static void start_both(struct run runs[2]) {
    start(&runs[0], 5);
    start(&runs[1], 32);
}

static void run_alone(void) {
    start_both(alone);
    make(&alone[0], CALLS);
    make(&alone[1], CALLS);
}

static void run_in_turns(void) {
    start_both(kept);
    for (int k = 0; k < CALLS; k++) {
        make(&kept[0], 1);
        make(&kept[1], 1);
    }
}

/* What thread k does: the first half of its own table's calls, and the second half of the other's or of its own. */
struct work {
    int first, second;
};

static void *thread(void *given) {
    const struct work *work = (const struct work *)given;
    struct lampfunnel_table chain = full_chain(32);
    int met;
    CHECK(lampfunnel_kill(&chain, 0, chain.processes[1].pids[0], 9) == 0 && lampfunnel_sound(chain));
    CHECK(chain.processes[1].state == LAMPFUNNEL_SIGNALED && chain.processes[2].pids[0] == 0);
    make(&kept[work->first], CALLS / 2);
    met = pthread_barrier_wait(&middle);
    CHECK(met == 0 || met == PTHREAD_BARRIER_SERIAL_THREAD);
    make(&kept[work->second], CALLS / 2);
    return NULL;
}

static void run_threads(struct work one, struct work other) {
    pthread_attr_t stack;
    pthread_t threads[2];
    start_both(kept);
    CHECK(pthread_barrier_init(&middle, NULL, 2) == 0);
    CHECK(pthread_attr_init(&stack) == 0 && pthread_attr_setstacksize(&stack, LAMPFUNNEL_STACK_BYTES) == 0);
    CHECK(pthread_create(&threads[0], &stack, thread, &one) == 0);
    CHECK(pthread_create(&threads[1], &stack, thread, &other) == 0);
    CHECK(pthread_join(threads[0], NULL) == 0 && pthread_join(threads[1], NULL) == 0);
    CHECK(pthread_attr_destroy(&stack) == 0 && pthread_barrier_destroy(&middle) == 0);
}

static void check_kept(void) {
    check_same(&kept[0], &alone[0]);
    check_same(&kept[1], &alone[1]);
}

/* How many calls of a run were granted: one in which nearly all are refused would show nothing. */
static int granted(const struct run *run) {
    int count = 0;
    for (int k = 0; k < CALLS; k++) {
        count += run->replies[k].answer >= 0;
    }
    return count;
}

int main(void) {
    const struct work zero = {0, 0}, one = {1, 1}, zero_then_one = {0, 1}, one_then_zero = {1, 0};
    run_alone();
    CHECK(granted(&alone[0]) > CALLS / 4 && granted(&alone[1]) > CALLS / 4);
    CHECK(!same_tables(&alone[0].table, &alone[1].table));
    run_in_turns();
    check_kept();
    run_threads(zero, one);
    check_kept();
    run_threads(zero_then_one, one_then_zero);
    check_kept();
    printf("two: %d calls on each of two tables, %d and %d granted; in turns, from two threads, handed over\n", CALLS,
           granted(&alone[0]), granted(&alone[1]));
    return 0;
}
