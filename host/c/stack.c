/*
 * The most stack that a function of the library was seen to take, where a thread makes the calls that go deepest: each
 * on a stack of known bytes, of which those that were never written are counted.
 */
#define _POSIX_C_SOURCE 200809L
#include "check.h"
#include <pthread.h>

#define ROOM (4 * LAMPFUNNEL_STACK_BYTES)
#define UNTOUCHED 0x5a

static struct lampfunnel_table table;

/* A chain of namespaces ends below the one on level 1: recursion goes down every level. */
static void end_of_chain(void) {
    CHECK(lampfunnel_kill(&table, 0, table.processes[1].pids[0], 9) == 0 && table.processes[2].pids[0] == 0);
}

static void end_of_all(void) {
    CHECK(lampfunnel_kill(&table, 0, -1, 9) == 0 && table.processes[2].pids[0] == 0);
}

static void exit_of_chain(void) {
    CHECK(lampfunnel_exit(&table, 1, 0) == 0 && table.processes[2].pids[0] == 0);
}

static void getpid_alone(void) {
    CHECK(lampfunnel_getpid(&table, 32) == 1);
}

static void sound_alone(void) {
    CHECK(lampfunnel_sound(table) && lampfunnel_next_pid(table, 32) != 0);
}

/* The same end by a script, in which the table is filled as full_chain does it. */
static void end_by_script(void) {
    static const char tail[] = "0 kill 2 9\n1 getpid\n", answers[] = "0\n-1001\n";
    static char script[LAMPFUNNEL_PROCESSES * 16];
    static uint8_t out[(LAMPFUNNEL_PROCESSES + 1) * LAMPFUNNEL_ANSWER_BYTES];
    size_t length = 0, used;
    for (int slot = 0; slot < LAMPFUNNEL_PROCESSES - 1; slot++) {
        length += (size_t)sprintf(script + length, slot < 32 ? "%d clone new\n" : "32 clone\n", slot);
    }
    strcpy(script + length, tail);
    used = lampfunnel_run((const uint8_t *)script, strlen(script), out, sizeof out);
    CHECK(used != LAMPFUNNEL_SHORT && memcmp(out + used - strlen(answers), answers, strlen(answers)) == 0);
}

/* ---- measuring -------------------------------------------------------------------------------------------------- */

struct work {
    const char *name;
    void (*make)(void);
};

static void *make(void *work) {
    ((const struct work *)work)->make();
    return NULL;
}

static size_t taken(struct work work) {
    void *room;
    pthread_attr_t stack;
    pthread_t thread;
    size_t left = 0;
    CHECK(posix_memalign(&room, 4096, ROOM) == 0);
    memset(room, UNTOUCHED, ROOM);
    CHECK(pthread_attr_init(&stack) == 0 && pthread_attr_setstack(&stack, room, ROOM) == 0);
    CHECK(pthread_create(&thread, &stack, make, &work) == 0 && pthread_join(thread, NULL) == 0);
    CHECK(pthread_attr_destroy(&stack) == 0);
    while (((unsigned char *)room)[left] == UNTOUCHED) {
        left++;
    }
    free(room);
    return ROOM - left;
}

static void nothing(void) {
}

int main(void) {
    static const struct work works[] = {{"kill, a chain ends", end_of_chain}, {"kill -1, all end", end_of_all},
                                        {"exit, a chain ends", exit_of_chain}, {"getpid", getpid_alone},
                                        {"sound, next_pid", sound_alone},      {"run, a chain ends", end_by_script}};
    const struct work none = {"", nothing};
    size_t thread = taken(none), most = 0, where = 0;
    for (size_t k = 0; k < sizeof works / sizeof *works; k++) {
        table = full_chain(32);
        size_t bytes = taken(works[k]);
        CHECK(bytes <= LAMPFUNNEL_STACK_BYTES);
        if (bytes > most) {
            most = bytes;
            where = k;
        }
    }
    printf("stack: at most %zu bytes (%s)\n", most - thread, works[where].name);
    return 0;
}
