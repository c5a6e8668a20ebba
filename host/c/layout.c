/*
 * Where C has each field, the library has it: by numbers, by what the library reads in a table that C wrote, and by
 * what it writes, every byte of the table held against one that C wrote. The table ends where a page ends after which
 * nothing is mapped, and the bytes before it are looked at after each call.
 */
#define _DEFAULT_SOURCE
#include "check.h"
#include <sys/mman.h>

/* ---- numbers: those that crates/lampfunnel/proofs/Offsets.antt states of the library ----------------------------- */

#define IS(name, is, number) typedef char name[(is) == (number) ? 1 : -1]
#define SIZE(kind, bytes) IS(kind##_size, sizeof(struct lampfunnel_##kind), bytes)
#define PLACE(kind, field, at, bytes) \
    IS(kind##_##field##_place, offsetof(struct lampfunnel_##kind, field), at); \
    IS(kind##_##field##_size, sizeof(((struct lampfunnel_##kind *)0)->field), bytes)

struct after_a_byte {
    char byte;
    struct lampfunnel_table table;
};
IS(table_align, offsetof(struct after_a_byte, table), 4);

SIZE(process, 80);
PLACE(process, own, 0, 1);
PLACE(process, children, 1, 1);
PLACE(process, parent, 2, 1);
PLACE(process, state, 3, 1);
PLACE(process, end, 4, 1);
PLACE(process, reserved, 5, 1);
PLACE(process, pids, 6, 66);
PLACE(process, handled, 72, 4);
PLACE(process, pending, 76, 4);
SIZE(namespace, 6);
PLACE(namespace, parent, 0, 1);
PLACE(namespace, level, 1, 1);
PLACE(namespace, life, 2, 1);
PLACE(namespace, init, 3, 1);
PLACE(namespace, last, 4, 2);
SIZE(table, 5408);
PLACE(table, processes, 0, 64 * 80);
PLACE(table, namespaces, 64 * 80, 48 * 6);
SIZE(request, 16);
PLACE(request, call, 0, 4);
PLACE(request, a, 4, 4);
PLACE(request, b, 8, 4);
PLACE(request, c, 12, 4);
SIZE(reply, 8);
PLACE(reply, answer, 0, 4);
PLACE(reply, child, 4, 1);
PLACE(reply, state, 5, 1);
PLACE(reply, end, 6, 1);

/* ---- a table that is lent with nothing after it ----------------------------------------------------------------- */

#define ROOM 8192
#define BEFORE (ROOM - sizeof(struct lampfunnel_table))
#define CANARY 0x5a

static unsigned char *room;
static struct lampfunnel_table *t;

static void make_room(void) {
    room = (unsigned char *)mmap(NULL, 2 * ROOM, PROT_READ | PROT_WRITE, MAP_PRIVATE | MAP_ANONYMOUS, -1, 0);
    CHECK(room != MAP_FAILED);
    CHECK(mprotect(room + ROOM, ROOM, PROT_NONE) == 0);
    memset(room, CANARY, ROOM);
    t = (struct lampfunnel_table *)(room + BEFORE);
}

static bool is_kept_before(void) {
    size_t k = 0;
    while (k < BEFORE && room[k] == CANARY) {
        k++;
    }
    return k == BEFORE;
}

/* A call on the lent table. */
static struct lampfunnel_reply call(uint32_t caller, uint32_t number, int32_t a, int32_t b) {
    struct lampfunnel_reply r = lampfunnel_call(t, caller, request(number, a, b, 0));
    CHECK(is_kept_before());
    return r;
}

static int32_t answer(uint32_t caller, uint32_t number, int32_t a, int32_t b) {
    return call(caller, number, a, b).answer;
}

/* ---- what the library reads: a full table that C writes, in which neighbours differ ----------------------------- */

/* So many of the namespaces are a chain from the root to the deepest level; each other lies below one of these. */
#define CHAIN 33

/* The number of process i on a level, but for the 1 of an init on its own: no two are the same. */
static uint16_t number(uint32_t i, uint32_t level) {
    return 2000 + 64 * level + i;
}

static uint16_t last(uint32_t n) {
    return 1000 + 7 * n;
}

static void write_namespace(struct lampfunnel_namespace *n, uint32_t i) {
    n->parent = i == 0 ? LAMPFUNNEL_NONE : i < CHAIN ? i - 1 : i - CHAIN;
    n->level = i < CHAIN ? i : i - CHAIN + 1;
    n->life = LAMPFUNNEL_ALIVE;
    n->init = i;
    n->last = last(i);
}

/* Slots 0 to 47 are the inits of the namespaces of the same slots. */
static void write_init(struct lampfunnel_process *p, uint32_t i, const struct lampfunnel_namespace *own) {
    p->own = i;
    p->children = i < CHAIN - 1 ? i + 1 : i;
    p->parent = own->parent;
    p->pids[own->level] = 1;
}

/* The others are members of the chain's lower half, in every state, with parents far above. */
static void write_member(struct lampfunnel_process *p, uint32_t i) {
    uint32_t k = i - LAMPFUNNEL_NAMESPACES;
    p->own = k + 17;
    p->children = k < 15 ? k + 18 : 32;
    p->parent = k;
    p->state = k % 4;
    p->end = p->state == LAMPFUNNEL_EXITED ? 200 + k : p->state == LAMPFUNNEL_SIGNALED ? k + 1 : 0;
    p->pids[p->own] = number(i, p->own);
}

static void write_signals(struct lampfunnel_process *p, uint32_t i) {
    p->handled = (i + 1) * 0x9e3779b1u & ~(1u | 1u << 9 | 1u << 19);
    p->pending = (i + 1) * 0x85ebca6bu & p->handled;
    if (p->state >= LAMPFUNNEL_EXITED) {
        p->children = LAMPFUNNEL_NONE;
        p->handled = p->pending = 0;
    }
}

static void write_process(struct lampfunnel_table *w, uint32_t i) {
    struct lampfunnel_process *p = &w->processes[i];
    if (i < LAMPFUNNEL_NAMESPACES) {
        write_init(p, i, &w->namespaces[i]);
    } else {
        write_member(p, i);
    }
    write_signals(p, i);
    for (uint32_t level = 0; level < w->namespaces[p->own].level; level++) {
        p->pids[level] = number(i, level);
    }
}

static struct lampfunnel_table written(void) {
    struct lampfunnel_table w;
    memset(&w, 0, sizeof w);
    for (uint32_t n = 0; n < LAMPFUNNEL_NAMESPACES; n++) {
        write_namespace(&w.namespaces[n], n);
    }
    for (uint32_t i = 0; i < LAMPFUNNEL_PROCESSES; i++) {
        write_process(&w, i);
    }
    return w;
}

static bool lies_below(const struct lampfunnel_table *w, uint32_t n, uint32_t top) {
    while (n != top && n != 0) {
        n = w->namespaces[n].parent;
    }
    return n == top;
}

/* own, pids, and a namespace's parent and level: by who finds whom under which number. */
static void check_numbers(const struct lampfunnel_table *w, uint32_t init) {
    CHECK(answer(init, LAMPFUNNEL_GETPID, 0, 0) == 1);
    for (uint32_t i = 0; i < LAMPFUNNEL_PROCESSES; i++) {
        bool seen = lies_below(w, w->processes[i].own, init);
        int32_t pid = i == init ? 1 : number(i, w->namespaces[init].level);
        CHECK(answer(init, LAMPFUNNEL_KILL, pid, 0) == (seen ? 0 : LAMPFUNNEL_ESRCH));
    }
    CHECK(same_tables(t, w));
}

/* A namespace's fields: the next number, and that another value is seen. */
static bool is_sound_with(const struct lampfunnel_table *w, uint32_t n, struct lampfunnel_namespace changed) {
    struct lampfunnel_table c = *w;
    c.namespaces[n] = changed;
    return lampfunnel_sound(c);
}

static void check_namespace(const struct lampfunnel_table *w, uint32_t n) {
    const struct lampfunnel_namespace is = w->namespaces[n];
    struct lampfunnel_namespace dead = is, by_another = is, deeper = is, circle = is, round = is, beyond = is;
    dead.life = LAMPFUNNEL_DEAD;
    dead.init = 0;
    by_another.init++;
    deeper.level++;
    circle.parent = n;
    round.last = 32767;
    beyond.last = 32768;
    CHECK(lampfunnel_next_pid(*w, n) == last(n) + 1);
    CHECK(is_sound_with(w, n, is) && is_sound_with(w, n, round));
    CHECK(!is_sound_with(w, n, dead) && !is_sound_with(w, n, by_another) && !is_sound_with(w, n, deeper));
    CHECK(!is_sound_with(w, n, circle) && !is_sound_with(w, n, beyond));
}

/* pids beyond the own level are 0: a number there is seen, wherever it stands. */
static void check_beyond(const struct lampfunnel_table *w, uint32_t i) {
    for (uint32_t level = w->namespaces[w->processes[i].own].level + 1; level < LAMPFUNNEL_LEVELS; level++) {
        struct lampfunnel_table damaged = *w;
        damaged.processes[i].pids[level] = number(i, level);
        CHECK(!lampfunnel_sound(damaged));
    }
}

/* handled: a signal of the root's becomes pending exactly where it is handled. (9 would end it.) */
static void check_handled(const struct lampfunnel_table *w, uint32_t i) {
    for (int32_t s = 1; s < 32; s++) {
        uint32_t bit = (uint32_t)1 << s;
        *t = *w;
        t->processes[i].pending = 0;
        CHECK(s == 9 || answer(0, LAMPFUNNEL_KILL, w->processes[i].pids[0], s) == 0);
        CHECK(t->processes[i].pending == (w->processes[i].handled & bit));
    }
    *t = *w;
}

/* pending: poll takes the bits from the lowest on. */
static void check_pending(const struct lampfunnel_table *w, uint32_t i) {
    uint32_t pending = w->processes[i].pending;
    for (int32_t s = 1; s < 32; s++) {
        CHECK((pending >> s & 1) == 0 || answer(i, LAMPFUNNEL_POLL, 0, 0) == s);
    }
    CHECK(answer(i, LAMPFUNNEL_POLL, 0, 0) == 0 && t->processes[i].pending == 0);
    t->processes[i].pending = pending;
    CHECK(same_tables(t, w));
}

/* children: where a child is born. Slot 63 is made free for it. */
static void check_children(const struct lampfunnel_table *w, uint32_t i) {
    memset(&t->processes[63], 0, sizeof t->processes[63]);
    CHECK(call(i, LAMPFUNNEL_CLONE, 0, 0).child == 63);
    CHECK(t->processes[63].own == w->processes[i].children && t->processes[63].parent == i);
    *t = *w;
}

/* state, end and parent: by who may call, whom 18 resumes, and what the parent's wait tells. */
static void check_state(const struct lampfunnel_table *w, uint32_t i) {
    const struct lampfunnel_process *p = &w->processes[i];
    bool ended = p->state >= LAMPFUNNEL_EXITED;
    const int32_t runs = p->pids[p->own], does_not = LAMPFUNNEL_NOT_RUNNING;
    CHECK(answer(i, LAMPFUNNEL_GETPID, 0, 0) == (p->state == LAMPFUNNEL_RUNNING ? runs : does_not));
    CHECK(answer(0, LAMPFUNNEL_KILL, p->pids[0], 18) == 0);
    CHECK(answer(i, LAMPFUNNEL_GETPID, 0, 0) == (ended ? does_not : runs));
    struct lampfunnel_reply r = call(p->parent, LAMPFUNNEL_WAIT, 0, 0);
    CHECK(r.answer == (ended ? p->pids[p->parent] : 0));
    CHECK(r.state == (ended ? p->state : 0) && r.end == p->end && r.child == LAMPFUNNEL_NONE);
    *t = *w;
}

static void check_reading(void) {
    struct lampfunnel_table w = written();
    CHECK(lampfunnel_sound(w));
    *t = w;
    for (uint32_t n = 0; n < LAMPFUNNEL_NAMESPACES; n++) {
        check_numbers(&w, n);
        check_namespace(&w, n);
        check_pending(&w, n);
        check_children(&w, n);
    }
    CHECK(lampfunnel_next_pid(w, 48) == 0 && lampfunnel_next_pid(w, 256) == 0 && lampfunnel_next_pid(w, ~0u) == 0);
    for (uint32_t i = 0; i < LAMPFUNNEL_PROCESSES; i++) {
        check_beyond(&w, i);
        check_handled(&w, i);
    }
    for (uint32_t i = LAMPFUNNEL_NAMESPACES; i < LAMPFUNNEL_PROCESSES; i++) {
        check_state(&w, i);
    }
}

/* parent, at each slot: 64 processes in the root namespace, each the child of the one before it. */
static void check_parents(void) {
    *t = lampfunnel_fresh();
    for (uint32_t i = 1; i < LAMPFUNNEL_PROCESSES; i++) {
        t->processes[i].parent = i - 1;
        t->processes[i].pids[0] = number(i, 0);
    }
    CHECK(answer(0, LAMPFUNNEL_GETPPID, 0, 0) == 0);
    for (uint32_t i = 1; i < LAMPFUNNEL_PROCESSES; i++) {
        CHECK(answer(i, LAMPFUNNEL_GETPPID, 0, 0) == t->processes[i - 1].pids[0]);
    }
}

/* ---- what the library writes: a story, and the table that C expects after each call ----------------------------- */

/* lampfunnel_fresh as the machine sees it: the result is written to where the first argument points. */
struct lampfunnel_table *fresh_at(struct lampfunnel_table *) __asm__("lampfunnel_fresh");

static struct lampfunnel_table expected;

/* A child as it is born. */
static struct lampfunnel_process *born(uint8_t slot, uint8_t own, uint8_t parent) {
    struct lampfunnel_process *p = &expected.processes[slot];
    p->own = p->children = own;
    p->parent = parent;
    return p;
}

static void end(uint8_t slot, uint8_t state, uint8_t how) {
    struct lampfunnel_process *p = &expected.processes[slot];
    p->children = LAMPFUNNEL_NONE;
    p->state = state;
    p->end = how;
    p->handled = p->pending = 0;
}

/* Makes the call; the reply and the whole table are as expected. */
#define LEAVES(caller, number, a, b, reply) \
    CHECK(same_replies(call(caller, LAMPFUNNEL_##number, a, b), reply) && same_tables(t, &expected))

static struct lampfunnel_reply child(int32_t answer, uint8_t slot) {
    struct lampfunnel_reply r = {answer, slot, 0, 0};
    return r;
}

static struct lampfunnel_reply reaped(int32_t answer, uint8_t state, uint8_t how) {
    struct lampfunnel_reply r = {answer, LAMPFUNNEL_NONE, state, how};
    return r;
}

static void check_fresh(void) {
    struct lampfunnel_namespace *root = &expected.namespaces[0];
    memset(t, CANARY, sizeof *t);
    CHECK(fresh_at(t) == t && is_kept_before());
    expected.processes[0].parent = LAMPFUNNEL_NONE;
    expected.processes[0].pids[0] = 1;
    root->parent = LAMPFUNNEL_NONE;
    root->life = LAMPFUNNEL_ALIVE;
    root->last = 1;
    CHECK(same_tables(t, &expected));
}

/* own, children, parent, pids; a namespace's parent, level, life, init, last. */
static void check_births(void) {
    struct lampfunnel_namespace *root = &expected.namespaces[0], *one = root + 1, *two = root + 2;
    born(1, 0, 0)->pids[0] = root->last = 2;
    LEAVES(0, CLONE, 0, 0, child(2, 1));
    born(2, 0, 1)->pids[0] = root->last = 3;
    LEAVES(1, CLONE, 0, 0, child(3, 2));
    expected.processes[1].children = 1;
    one->level = 1;
    LEAVES(1, UNSHARE, 0, 0, plain(0));
    born(3, 1, 1)->pids[0] = root->last = 4;
    expected.processes[3].pids[1] = one->last = 1;
    one->life = LAMPFUNNEL_ALIVE;
    one->init = 3;
    LEAVES(1, CLONE, 0, 0, child(4, 3));
    born(4, 2, 3)->pids[0] = root->last = 5;
    expected.processes[4].pids[1] = one->last = 2;
    expected.processes[4].pids[2] = two->last = 1;
    two->parent = 1;
    two->level = 2;
    two->life = LAMPFUNNEL_ALIVE;
    two->init = 4;
    LEAVES(3, CLONE_NEW, 0, 0, child(2, 4));
}

/* handled, pending, state, children. */
static void check_signals(void) {
    struct lampfunnel_process *p = &expected.processes[2];
    p->handled = 1u << 15;
    LEAVES(2, HANDLE, 15, 0, plain(0));
    p->handled = 1u << 15 | 1u << 31;
    LEAVES(2, HANDLE, 31, 0, plain(0));
    p->pending = 1u << 31;
    LEAVES(0, KILL, 3, 31, plain(0));
    p->pending = 1u << 15 | 1u << 31;
    LEAVES(0, KILL, 3, 15, plain(0));
    p->pending = 1u << 31;
    LEAVES(2, POLL, 0, 0, plain(15));
    p->handled = 1u << 31;
    LEAVES(2, UNHANDLE, 15, 0, plain(0));
    p->state = LAMPFUNNEL_STOPPED;
    LEAVES(0, KILL, 3, 19, plain(0));
    p->state = LAMPFUNNEL_RUNNING;
    LEAVES(0, KILL, 3, 18, plain(0));
    p->children = 1;
    LEAVES(2, SETNS, 4, 0, plain(0));
}

/* state, end, life, init; removed processes and freed namespaces are all zero. */
static void check_ends(void) {
    struct lampfunnel_namespace *two = &expected.namespaces[2];
    end(2, LAMPFUNNEL_EXITED, 7);
    LEAVES(2, EXIT, 7, 0, plain(0));
    memset(&expected.processes[2], 0, sizeof expected.processes[2]);
    LEAVES(1, WAIT, 0, 0, reaped(3, LAMPFUNNEL_EXITED, 7));
    end(4, LAMPFUNNEL_SIGNALED, 9);
    two->life = LAMPFUNNEL_DEAD;
    two->init = 0;
    LEAVES(0, KILL, 5, 9, plain(0));
    memset(&expected.processes[4], 0, sizeof expected.processes[4]);
    memset(two, 0, sizeof *two);
    LEAVES(3, WAIT, 0, 0, reaped(2, LAMPFUNNEL_SIGNALED, 9));
    end(1, LAMPFUNNEL_EXITED, 255);
    expected.processes[3].parent = 0;
    LEAVES(1, EXIT, -1, 0, plain(0));
    LEAVES(3, GETPID, 0, 0, plain(1));
    LEAVES(3, GETPPID, 0, 0, plain(0));
}

int main(void) {
    make_room();
    check_reading();
    check_parents();
    check_fresh();
    check_births();
    check_signals();
    check_ends();
    printf("layout: %zu bytes, each field where the library has it\n", sizeof *t);
    return 0;
}
