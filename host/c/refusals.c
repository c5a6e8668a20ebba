/*
 * What is refused, and that the table is then as it was, to the last bit: bytes that no call leaves behind, callers
 * that are nobody, numbers that no call has, and document 01's refusals in their order.
 */
#include "check.h"

/* A table with something at every kind of slot: an init, a stopped process, one that exited and one that a signal
 * ended, an empty slot; a namespace that is alive, a dead and an unborn one, an empty slot. */
enum { ROOT, STOPPED, EXITED, SIGNALED, HOLDER, NOBODY };
enum { LIVING, DEAD, UNBORN, NOWHERE };

static struct lampfunnel_table mixed(void) {
    struct lampfunnel_table t = lampfunnel_fresh();
    CHECK(lampfunnel_clone(&t, ROOT).child == STOPPED && lampfunnel_kill(&t, ROOT, 2, 19) == 0);
    CHECK(lampfunnel_clone_new(&t, ROOT).child == EXITED && lampfunnel_exit(&t, EXITED, 0) == 0);
    CHECK(lampfunnel_clone(&t, ROOT).child == SIGNALED && lampfunnel_kill(&t, ROOT, 4, 9) == 0);
    CHECK(lampfunnel_clone(&t, ROOT).child == HOLDER && lampfunnel_unshare(&t, HOLDER) == 0);
    CHECK(t.processes[ROOT].state == LAMPFUNNEL_RUNNING && t.processes[STOPPED].state == LAMPFUNNEL_STOPPED);
    CHECK(t.processes[EXITED].state == LAMPFUNNEL_EXITED && t.processes[SIGNALED].state == LAMPFUNNEL_SIGNALED);
    CHECK(t.processes[NOBODY].pids[0] == 0 && t.namespaces[NOWHERE].level == 0);
    CHECK(t.namespaces[LIVING].life == LAMPFUNNEL_ALIVE && t.namespaces[DEAD].life == LAMPFUNNEL_DEAD);
    CHECK(t.namespaces[UNBORN].life == LAMPFUNNEL_UNBORN && t.namespaces[UNBORN].level == 1);
    return t;
}

/* ---- bytes that no call leaves behind --------------------------------------------------------------------------- */

static long damages;

/* The table that one of its bytes is damaged in, and a running process of its. */
static struct lampfunnel_table table;

/* Gives a byte another value: every call is told so, nothing is changed, and the number is that of a table of zeros.
 * With the old value all is well again. */
static void check_damaged(uint8_t *byte, uint8_t value) {
    uint8_t old = *byte;
    *byte = value;
    damages++;
    CHECK(!lampfunnel_sound(table));
    CHECK(lampfunnel_next_pid(table, LIVING) == 1 && lampfunnel_next_pid(table, 48) == 0);
    CHECK(is_refused(&table, ROOT, request(1 + damages % 12, 1, 1, 1), LAMPFUNNEL_UNSOUND));
    CHECK(is_refused(&table, NOBODY, request(LAMPFUNNEL_GETPID, 0, 0, 0), LAMPFUNNEL_UNSOUND));
    CHECK(is_refused(&table, ROOT, request(13, 0, 0, 0), LAMPFUNNEL_NO_CALL));
    *byte = old;
}

/* Every value from one on. */
static void check_from(uint8_t *byte, uint32_t first) {
    CHECK(lampfunnel_sound(table));
    for (uint32_t value = first; value < 256; value++) {
        check_damaged(byte, value);
    }
    CHECK(lampfunnel_getpid(&table, ROOT) == 1);
}

/* Every value, at every kind of slot. */
static void check_values(void) {
    table = mixed();
    for (uint32_t slot = ROOT; slot <= NOBODY; slot++) {
        struct lampfunnel_process *p = &table.processes[slot];
        check_from(&p->state, 4);
        check_from(&p->reserved, 1);
        if (p->state < LAMPFUNNEL_EXITED) {
            check_from(&p->end, 1);
        }
    }
    for (uint32_t slot = LIVING; slot <= NOWHERE; slot++) {
        struct lampfunnel_namespace *n = &table.namespaces[slot];
        check_from(&n->life, 3);
        if (n->life != LAMPFUNNEL_ALIVE) {
            check_from(&n->init, 1);
        }
    }
}

/* The lowest and the highest value at every slot of a table. */
static void check_slots(struct lampfunnel_table whole) {
    table = whole;
    for (uint32_t slot = 0; slot < LAMPFUNNEL_PROCESSES; slot++) {
        check_damaged(&table.processes[slot].state, 4);
        check_damaged(&table.processes[slot].state, 255);
        check_damaged(&table.processes[slot].reserved, 1);
        check_damaged(&table.processes[slot].reserved, 128);
        check_damaged(&table.processes[slot].end, 1);
        check_damaged(&table.processes[slot].end, 128);
    }
    for (uint32_t slot = 0; slot < LAMPFUNNEL_NAMESPACES; slot++) {
        check_damaged(&table.namespaces[slot].life, 3);
        check_damaged(&table.namespaces[slot].life, 255);
        if (table.namespaces[slot].life != LAMPFUNNEL_ALIVE) {
            check_damaged(&table.namespaces[slot].init, 1);
            check_damaged(&table.namespaces[slot].init, 128);
        }
    }
    CHECK(lampfunnel_sound(table) && same_tables(&table, &whole));
}

/* ---- callers and numbers ---------------------------------------------------------------------------------------- */

/* Slots that hold nobody who runs; some would be slot 0 in 8 or 16 bits. */
static void check_callers(void) {
    static const uint32_t nobody[] = {STOPPED, EXITED, SIGNALED, NOBODY, 63, 64, 128, 255, 256, 256 + HOLDER, 65536,
                                      65536 + HOLDER, 0x7fffffff, 0x80000000, 0xffffff00, UINT32_MAX};
    struct lampfunnel_table sound = mixed(), damaged = mixed();
    damaged.processes[ROOT].parent = 0;
    for (size_t k = 0; k < sizeof nobody / sizeof *nobody; k++) {
        for (uint32_t number = 1; number <= 12; number++) {
            CHECK(is_refused(&sound, nobody[k], request(number, 1, 1, 1), LAMPFUNNEL_NOT_RUNNING));
            CHECK(is_refused(&damaged, nobody[k], request(number, 1, 1, 1), LAMPFUNNEL_UNSOUND));
        }
        CHECK(is_refused(&sound, nobody[k], request(0, 1, 1, 1), LAMPFUNNEL_NO_CALL));
        CHECK(is_refused(&damaged, nobody[k], request(0, 1, 1, 1), LAMPFUNNEL_NO_CALL));
    }
    CHECK(lampfunnel_getpid(&sound, HOLDER) == 5);
}

/* Numbers that no call has, and that would be one in fewer bits; on a table that is sound, and on one that is not. */
static void check_call_numbers(void) {
    static const uint32_t above[] = {0, 256, 65536, 0x01000000, 0x80000000, 0xffffff00};
    struct lampfunnel_table sound = mixed(), damaged = mixed();
    damaged.processes[NOBODY].reserved = 1;
    for (size_t k = 0; k < sizeof above / sizeof *above; k++) {
        for (uint32_t low = 0; low < 256; low++) {
            struct lampfunnel_request r = request(above[k] + low, 1, 0, 0);
            if (r.call == 0 || r.call > 12) {
                CHECK(is_refused(&sound, ROOT, r, LAMPFUNNEL_NO_CALL));
                CHECK(is_refused(&damaged, ROOT, r, LAMPFUNNEL_NO_CALL));
            }
        }
    }
    memset(&damaged, 0xa5, sizeof damaged);
    CHECK(is_refused(&damaged, ROOT, request(UINT32_MAX, 1, 0, 0), LAMPFUNNEL_NO_CALL));
    CHECK(is_refused(&damaged, ROOT, request(LAMPFUNNEL_GETPID, 0, 0, 0), LAMPFUNNEL_UNSOUND));
    CHECK(!lampfunnel_sound(damaged));
}

/* How many arguments a call takes. The others make no difference. */
static void check_arguments(void) {
    static const uint8_t taken[13] = {0, 0, 0, 0, 1, 2, 1, 0, 0, 0, 1, 1, 0};
    const struct lampfunnel_table start = mixed();
    for (uint32_t number = 1; number <= 12; number++) {
        struct lampfunnel_table left = start, right = start;
        struct lampfunnel_request little = request(number, taken[number] > 0, taken[number] > 1, 0), much = little;
        much.a = taken[number] > 0 ? much.a : -1;
        much.b = taken[number] > 1 ? much.b : INT32_MIN;
        much.c = 77;
        CHECK(same_replies(lampfunnel_call(&left, ROOT, little), lampfunnel_call(&right, ROOT, much)));
        CHECK(same_tables(&left, &right));
    }
}

/* ---- document 01's -------------------------------------------------------------------------------------------- */

/* One that would be refused for two reasons is told the one that stands first. */
static void check_listed(void) {
    struct lampfunnel_table full = full_chain(32), t = mixed();
    CHECK(is_refused(&t, ROOT, request(LAMPFUNNEL_KILL, 0, 32, 0), LAMPFUNNEL_EINVAL));
    CHECK(is_refused(&t, ROOT, request(LAMPFUNNEL_KILL, -2, 31, 0), LAMPFUNNEL_ENOSYS));
    CHECK(is_refused(&t, ROOT, request(LAMPFUNNEL_KILL, 65537, 0, 0), LAMPFUNNEL_ESRCH));
    CHECK(is_refused(&t, ROOT, request(LAMPFUNNEL_SETNS, 4, 0, 0), LAMPFUNNEL_ESRCH));
    CHECK(is_refused(&t, ROOT, request(LAMPFUNNEL_HANDLE, 19, 0, 0), LAMPFUNNEL_EINVAL));
    CHECK(is_refused(&t, ROOT, request(LAMPFUNNEL_UNHANDLE, 9, 0, 0), LAMPFUNNEL_EINVAL));
    CHECK(is_refused(&t, ROOT, request(LAMPFUNNEL_EXIT, 0, 0, 0), LAMPFUNNEL_EBUSY));
    CHECK(is_refused(&t, HOLDER, request(LAMPFUNNEL_WAIT, 0, 0, 0), LAMPFUNNEL_ECHILD));
    CHECK(is_refused(&t, HOLDER, request(LAMPFUNNEL_UNSHARE, 0, 0, 0), LAMPFUNNEL_EINVAL));
    CHECK(is_refused(&full, 32, request(LAMPFUNNEL_CLONE_NEW, 0, 0, 0), LAMPFUNNEL_ENOSPC));
    CHECK(is_refused(&full, 63, request(LAMPFUNNEL_UNSHARE, 0, 0, 0), LAMPFUNNEL_ENOSPC));
    CHECK(is_refused(&full, 0, request(LAMPFUNNEL_CLONE, 0, 0, 0), LAMPFUNNEL_EAGAIN));
    CHECK(is_refused(&full, 31, request(LAMPFUNNEL_CLONE_NEW, 0, 0, 0), LAMPFUNNEL_EAGAIN));
    CHECK(lampfunnel_clone(&t, HOLDER).child == NOBODY && lampfunnel_exit(&t, NOBODY, 0) == 0);
    CHECK(is_refused(&t, HOLDER, request(LAMPFUNNEL_CLONE, 0, 0, 0), LAMPFUNNEL_ENOMEM));
}

int main(void) {
    check_values();
    check_slots(lampfunnel_fresh());
    check_slots(full_chain(32));
    check_callers();
    check_call_numbers();
    check_arguments();
    check_listed();
    printf("refusals: %ld damaged bytes caught; every refusal left the table to the last bit\n", damages);
    return 0;
}
