/* What the programs here share: a check that stops at the first wrong thing, and short words for requests. */
#ifndef CHECK_H
#define CHECK_H

#include "lampfunnel.h"
#include <stdio.h>
#include <stdlib.h>
#include <string.h>

#define CHECK(holds) \
    do { \
        if (!(holds)) { \
            fprintf(stderr, "%s:%d: not so: %s\n", __FILE__, __LINE__, #holds); \
            exit(1); \
        } \
    } while (0)

static inline struct lampfunnel_request request(uint32_t call, int32_t a, int32_t b, int32_t c) {
    struct lampfunnel_request r = {call, a, b, c};
    return r;
}

static inline bool same_tables(const struct lampfunnel_table *a, const struct lampfunnel_table *b) {
    return memcmp(a, b, sizeof *a) == 0;
}

static inline bool same_replies(struct lampfunnel_reply a, struct lampfunnel_reply b) {
    return a.answer == b.answer && a.child == b.child && a.state == b.state && a.end == b.end;
}

/* What every refusal and every call without a child or a removed process tells. */
static inline struct lampfunnel_reply plain(int32_t answer) {
    struct lampfunnel_reply r = {answer, LAMPFUNNEL_NONE, 0, 0};
    return r;
}

/* A call that is refused: the answer, nothing beside it, and the table as it was to the last bit. */
static inline bool is_refused(struct lampfunnel_table *t, uint32_t caller, struct lampfunnel_request r, int32_t with) {
    struct lampfunnel_table before = *t;
    return same_replies(lampfunnel_call(t, caller, r), plain(with)) && same_tables(t, &before);
}

/* A chain of namespaces from the root to a level, the init of each at the slot of its level; the rest of the 64
 * processes in the deepest. */
static inline struct lampfunnel_table full_chain(uint32_t level) {
    struct lampfunnel_table t = lampfunnel_fresh();
    for (uint32_t slot = 0; slot < LAMPFUNNEL_PROCESSES - 1; slot++) {
        struct lampfunnel_reply r = slot < level ? lampfunnel_clone_new(&t, slot) : lampfunnel_clone(&t, level);
        CHECK(r.child == slot + 1);
    }
    return t;
}

#endif
