/*
 * The ten lines of document 01, once as a script and once call by call on a table that the program keeps. At the top of
 * the repository:
 *
 *     tools/build
 *     cc -Wall -Ihost/include host/example.c -Ltarget/staticlib -llampfunnel -o target/example && target/example
 */
#include "lampfunnel.h"
#include <stdio.h>
#include <string.h>

#define LINES 10

static const char *const lines[LINES] = {"0 clone new", "1 getpid",   "1 getppid", "1 clone", "2 kill 1 9",
                                         "0 kill 2 9",  "0 kill 3 0", "0 wait",    "0 wait",  "0 clone"};

static const struct {
    uint32_t caller;
    struct lampfunnel_request request;
} calls[LINES] = {{0, {LAMPFUNNEL_CLONE_NEW, 0, 0, 0}}, {1, {LAMPFUNNEL_GETPID, 0, 0, 0}},
                  {1, {LAMPFUNNEL_GETPPID, 0, 0, 0}},   {1, {LAMPFUNNEL_CLONE, 0, 0, 0}},
                  {2, {LAMPFUNNEL_KILL, 1, 9, 0}},      {0, {LAMPFUNNEL_KILL, 2, 9, 0}},
                  {0, {LAMPFUNNEL_KILL, 3, 0, 0}},      {0, {LAMPFUNNEL_WAIT, 0, 0, 0}},
                  {0, {LAMPFUNNEL_WAIT, 0, 0, 0}},      {0, {LAMPFUNNEL_CLONE, 0, 0, 0}}};

/* The answers of all lines, each with its line feed. */
static size_t run_script(uint8_t *answers, size_t room) {
    char script[LINES * 16] = "";
    for (int k = 0; k < LINES; k++) {
        strcat(strcat(script, lines[k]), "\n");
    }
    return lampfunnel_run((const uint8_t *)script, strlen(script), answers, room);
}

static void print_reply(struct lampfunnel_reply r) {
    printf("%d", (int)r.answer);
    if (r.state != 0) {
        printf(r.state == LAMPFUNNEL_EXITED ? " gave %d" : " signal %d", r.end);
    }
    if (r.child != LAMPFUNNEL_NONE) {
        printf(" (slot %d)", r.child);
    }
    printf("\n");
}

int main(void) {
    static char answers[LINES * LAMPFUNNEL_ANSWER_BYTES + 1];
    struct lampfunnel_table table = lampfunnel_fresh();
    char *answer = answers;
    if (run_script((uint8_t *)answers, sizeof answers - 1) == LAMPFUNNEL_SHORT) {
        return 1;
    }
    printf("%-14s%-14s%s\n", "line", "script", "call");
    for (int k = 0; k < LINES; k++) {
        size_t length = strcspn(answer, "\n");
        printf("%-14s%-14.*s", lines[k], (int)length, answer);
        print_reply(lampfunnel_call(&table, calls[k].caller, calls[k].request));
        answer += length + 1;
    }
    if (run_script((uint8_t *)answers, sizeof answers - 2) == LAMPFUNNEL_SHORT) {
        puts("a buffer that is a byte too short is refused");
    }
    memset(&table, 0, sizeof table);
    if (!lampfunnel_sound(table)) {
        puts("a table of zeros is not sound");
    }
    return 0;
}
