/* The library's functions as a C host calls them, many times in a row: `src/calls.rs` and `src/clones.rs` time them. */
#include "lampfunnel.h"

/* How often a call told an answer. */
size_t bench_calls(struct lampfunnel_table *table, uint32_t caller, struct lampfunnel_request request, int32_t answer,
                   size_t times) {
    size_t told = 0;
    while (times-- > 0) {
        told += lampfunnel_call(table, caller, request).answer == answer;
    }
    return told;
}

typedef struct lampfunnel_reply call_function(struct lampfunnel_table *, uint32_t, struct lampfunnel_request);

/* The same of a call that changes the table, each time on a copy, by a library's `lampfunnel_call`. */
size_t bench_copies(call_function *call, const struct lampfunnel_table *table, uint32_t caller,
                    struct lampfunnel_request request, int32_t answer, size_t times) {
    size_t told = 0;
    while (times-- > 0) {
        struct lampfunnel_table copy = *table;
        told += call(&copy, caller, request).answer == answer;
    }
    return told;
}

/* How often the fresh table had its root init. */
size_t bench_fresh(struct lampfunnel_table *table, size_t times) {
    size_t told = 0;
    while (times-- > 0) {
        *table = lampfunnel_fresh();
        told += table->processes[0].pids[0] == 1;
    }
    return told;
}
