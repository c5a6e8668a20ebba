/*
 * Lampfunnel: the table of processes and PID namespaces, as Linux has them, for a program that keeps it and makes one
 * call at a time. The functions are written in Rattle and proved (crates/lampfunnel/src/lib.rt states what each
 * answers, for all inputs); the inline ones only name a call. `tools/build` writes the library,
 * target/staticlib/liblampfunnel.a, for x86-64 Linux.
 *
 *     struct lampfunnel_table t = lampfunnel_fresh();             one process, the root init, at slot 0
 *     struct lampfunnel_reply r = lampfunnel_clone_new(&t, 0);    r.answer is the child's number, r.child its slot
 *     if (lampfunnel_kill(&t, 0, r.answer, 9) < 0) { ... }        a refusal: t is as it was, to the last bit
 *
 * Any table, any caller and any request have an answer. The table is the host's own memory: copy it, compare it with
 * memcmp (it has no padding), keep several. Nothing else is kept and nothing is allocated. A table is lent to one call
 * at a time; different tables may be used from different threads. Each thread should have LAMPFUNNEL_STACK_BYTES of
 * stack. No pointer is null, also where its length is 0, and each is aligned for its type.
 */
#ifndef LAMPFUNNEL_H
#define LAMPFUNNEL_H

#include <stdbool.h>
#include <stddef.h>
#include <stdint.h>

#ifdef __cplusplus
extern "C" {
#endif

/* The version of this header: it grows where a struct or a call changes. */
#define LAMPFUNNEL_VERSION_MAJOR 0
#define LAMPFUNNEL_VERSION_MINOR 2
#define LAMPFUNNEL_VERSION (LAMPFUNNEL_VERSION_MAJOR * 1000 + LAMPFUNNEL_VERSION_MINOR)

/*
 * Bytes of stack that are enough for each function. The most was taken where a namespace on level 1 ended with a chain
 * of namespaces to level 32 below it: 146,708 bytes by lampfunnel_call, 154,004 by lampfunnel_run (host/c/stack.c).
 */
#define LAMPFUNNEL_STACK_BYTES ((size_t)1 << 20)

/* ---- the table: read any field; a call is what changes it ------------------------------------------------------- */

#define LAMPFUNNEL_PROCESSES 64
#define LAMPFUNNEL_NAMESPACES 48
#define LAMPFUNNEL_LEVELS 33

/* No slot, in a field that holds one. */
#define LAMPFUNNEL_NONE 255

/* The state of a process. */
enum { LAMPFUNNEL_RUNNING = 0, LAMPFUNNEL_STOPPED = 1, LAMPFUNNEL_EXITED = 2, LAMPFUNNEL_SIGNALED = 3 };

/* The life of a namespace. */
enum { LAMPFUNNEL_UNBORN = 0, LAMPFUNNEL_ALIVE = 1, LAMPFUNNEL_DEAD = 2 };

/* A process has a number at the root's level, pids[0]; an empty slot is all zero. */
struct lampfunnel_process {
    uint8_t own;                      /* the slot of its namespace */
    uint8_t children;                 /* that of its children's namespace; LAMPFUNNEL_NONE once it has ended */
    uint8_t parent;                   /* the slot of its parent; LAMPFUNNEL_NONE for the root init */
    uint8_t state;                    /* LAMPFUNNEL_RUNNING .. LAMPFUNNEL_SIGNALED */
    uint8_t end;                      /* exited: the number it gave; signaled: the signal; else 0 */
    uint8_t reserved;                 /* 0 */
    uint16_t pids[LAMPFUNNEL_LEVELS]; /* its number at each level from the root's to its own, 0 beyond */
    uint32_t handled, pending;        /* bit s for signal s */
};

/* A namespace is at slot 0, the root, or has a level; an empty slot is all zero. */
struct lampfunnel_namespace {
    uint8_t parent; /* the slot of its parent; LAMPFUNNEL_NONE for the root */
    uint8_t level;  /* 0 for the root */
    uint8_t life;   /* LAMPFUNNEL_UNBORN .. LAMPFUNNEL_DEAD */
    uint8_t init;   /* alive: the slot of its init; else 0 */
    uint16_t last;  /* the last number that it gave */
};

/*
 * Bytes that no call leaves behind are caught. A table with a state above 3, a life above 2, an `end` beside a process
 * that has not ended, an `init` beside a namespace that is not alive, or a `reserved` that is not 0, at any slot, also
 * an empty one, is not sound, whatever else it holds.
 */
struct lampfunnel_table {
    struct lampfunnel_process processes[LAMPFUNNEL_PROCESSES];
    struct lampfunnel_namespace namespaces[LAMPFUNNEL_NAMESPACES];
};

/* ---- answers ---------------------------------------------------------------------------------------------------- */

/* An answer below 0 is a refusal. They are tried in this order; those above -1000 are Linux's errno values, negated. */
enum lampfunnel_refusal {
    LAMPFUNNEL_NO_CALL = -1002,     /* the request has a number that no call has */
    LAMPFUNNEL_UNSOUND = -1000,     /* the table is not sound */
    LAMPFUNNEL_NOT_RUNNING = -1001, /* the caller's slot is beyond 63, empty, ended or stopped */
    LAMPFUNNEL_EINVAL = -22,        /* kill, handle: no signal they take; clone_new, unshare: children go elsewhere */
    LAMPFUNNEL_ENOSYS = -38,        /* kill: the number is 0 or below -1 */
    LAMPFUNNEL_ESRCH = -3,          /* kill, setns: no such process is seen; setns: it has ended */
    LAMPFUNNEL_EBUSY = -16,         /* exit by the root init */
    LAMPFUNNEL_ECHILD = -10,        /* wait: no children */
    LAMPFUNNEL_ENOSPC = -28,        /* clone_new, unshare: the caller is on the deepest level */
    LAMPFUNNEL_ENOMEM = -12,        /* clone: the children's namespace is dead */
    LAMPFUNNEL_EAGAIN = -11         /* no room: 64 processes, or 48 namespaces */
};

struct lampfunnel_reply {
    int32_t answer;
    uint8_t child;      /* the slot of a child that was born, or LAMPFUNNEL_NONE */
    uint8_t state, end; /* of a process that a wait removed, as in its record; else 0 */
};

/* ---- one call --------------------------------------------------------------------------------------------------- */

/* Numbers of calls. A number is never given to another call; later ones are added at the end. */
enum lampfunnel_call_number {
    LAMPFUNNEL_CLONE = 1,
    LAMPFUNNEL_CLONE_NEW = 2,
    LAMPFUNNEL_UNSHARE = 3,
    LAMPFUNNEL_SETNS = 4,
    LAMPFUNNEL_KILL = 5,
    LAMPFUNNEL_EXIT = 6,
    LAMPFUNNEL_WAIT = 7,
    LAMPFUNNEL_GETPID = 8,
    LAMPFUNNEL_GETPPID = 9,
    LAMPFUNNEL_HANDLE = 10,
    LAMPFUNNEL_UNHANDLE = 11,
    LAMPFUNNEL_POLL = 12
};

/* A call as data: its number and arguments, in the order of the functions below. What it does not take is not read. */
struct lampfunnel_request {
    uint32_t call;
    int32_t a, b, c;
};

/* The fresh table: the root init alone, at slot 0. */
struct lampfunnel_table lampfunnel_fresh(void);

/* Whether a table is sound. From the fresh table no call leads to one that is not. */
bool lampfunnel_sound(struct lampfunnel_table table);

/*
 * The number that the namespace at a slot would give next, in any table; 0 where the slot is 48 or more. A table with
 * bytes that no call leaves behind is taken for one of zeros.
 */
uint16_t lampfunnel_next_pid(struct lampfunnel_table table, uint32_t namespace_slot);

/*
 * One call, by the process at a slot, on any table; the table is changed in place. A slot of 64 or more holds nobody:
 * 256 is not taken for 0. A request whose number no call has is told LAMPFUNNEL_NO_CALL and does nothing, whatever the
 * table is.
 */
struct lampfunnel_reply lampfunnel_call(struct lampfunnel_table *table, uint32_t caller,
                                        struct lampfunnel_request request);

/* ---- the same by name ------------------------------------------------------------------------------------------- */

static inline struct lampfunnel_reply lampfunnel_call_with(struct lampfunnel_table *t, uint32_t caller, uint32_t call,
                                                           int32_t a, int32_t b) {
    struct lampfunnel_request request = {call, a, b, 0};
    return lampfunnel_call(t, caller, request);
}
static inline struct lampfunnel_reply lampfunnel_clone(struct lampfunnel_table *t, uint32_t caller) {
    return lampfunnel_call_with(t, caller, LAMPFUNNEL_CLONE, 0, 0);
}
static inline struct lampfunnel_reply lampfunnel_clone_new(struct lampfunnel_table *t, uint32_t caller) {
    return lampfunnel_call_with(t, caller, LAMPFUNNEL_CLONE_NEW, 0, 0);
}
static inline struct lampfunnel_reply lampfunnel_wait(struct lampfunnel_table *t, uint32_t caller) {
    return lampfunnel_call_with(t, caller, LAMPFUNNEL_WAIT, 0, 0);
}
static inline int32_t lampfunnel_unshare(struct lampfunnel_table *t, uint32_t caller) {
    return lampfunnel_call_with(t, caller, LAMPFUNNEL_UNSHARE, 0, 0).answer;
}
static inline int32_t lampfunnel_setns(struct lampfunnel_table *t, uint32_t caller, int32_t pid) {
    return lampfunnel_call_with(t, caller, LAMPFUNNEL_SETNS, pid, 0).answer;
}
static inline int32_t lampfunnel_kill(struct lampfunnel_table *t, uint32_t caller, int32_t pid, int32_t signal) {
    return lampfunnel_call_with(t, caller, LAMPFUNNEL_KILL, pid, signal).answer;
}
static inline int32_t lampfunnel_exit(struct lampfunnel_table *t, uint32_t caller, int32_t status) {
    return lampfunnel_call_with(t, caller, LAMPFUNNEL_EXIT, status, 0).answer;
}
static inline int32_t lampfunnel_getpid(struct lampfunnel_table *t, uint32_t caller) {
    return lampfunnel_call_with(t, caller, LAMPFUNNEL_GETPID, 0, 0).answer;
}
static inline int32_t lampfunnel_getppid(struct lampfunnel_table *t, uint32_t caller) {
    return lampfunnel_call_with(t, caller, LAMPFUNNEL_GETPPID, 0, 0).answer;
}
static inline int32_t lampfunnel_handle(struct lampfunnel_table *t, uint32_t caller, int32_t signal, bool on) {
    return lampfunnel_call_with(t, caller, on ? LAMPFUNNEL_HANDLE : LAMPFUNNEL_UNHANDLE, signal, 0).answer;
}
static inline int32_t lampfunnel_poll(struct lampfunnel_table *t, uint32_t caller) {
    return lampfunnel_call_with(t, caller, LAMPFUNNEL_POLL, 0, 0).answer;
}

/* ---- a whole script --------------------------------------------------------------------------------------------- */

/* An answer has at most so many bytes, its line feed counted. */
#define LAMPFUNNEL_ANSWER_BYTES ((size_t)32)

/* What lampfunnel_run answers where the buffer is too short. */
#define LAMPFUNNEL_SHORT SIZE_MAX

/*
 * Runs a whole script from the fresh table. Each line gives one line of answer; the script's last line feed may be
 * missing. The answers are written to the start of `out`, and the result is how many bytes they are; the bytes after
 * them stay as they were.
 *
 * Where out_len is less than LAMPFUNNEL_ANSWER_BYTES for each line, the result is LAMPFUNNEL_SHORT and `out` stays as
 * it was. `script` and `out` do not overlap.
 */
size_t lampfunnel_run(const uint8_t *script, size_t script_len, uint8_t *out, size_t out_len);

#ifdef __cplusplus
}
#endif

#endif
