// Preloaded before the recorder, this makes its reads, its writes to standard output and those to standard error follow
// a plan each. FAULTS_READ, FAULTS_WRITE and FAULTS_TELL are lists with a number for each call in turn: the most bytes
// that it moves, or, below 0, the error that it gives, as -4 for EINTR. After the list come true calls. An error that
// no call came to is told on standard error, so that no test passes without the fault that it asks for.
#define _DEFAULT_SOURCE
#include <errno.h>
#include <stdio.h>
#include <stdlib.h>
#include <string.h>
#include <sys/syscall.h>
#include <unistd.h>

static const char *read_plan;
static const char *write_plan;
static const char *tell_plan;

static const char *plan_of(const char *variable)
{
    const char *plan = getenv(variable);
    return plan ? plan : "";
}

__attribute__((constructor)) static void begin(void)
{
    read_plan = plan_of("FAULTS_READ");
    write_plan = plan_of("FAULTS_WRITE");
    tell_plan = plan_of("FAULTS_TELL");
}

__attribute__((destructor)) static void end(void)
{
    if (strchr(read_plan, '-') || strchr(write_plan, '-') || strchr(tell_plan, '-')) {
        dprintf(STDERR_FILENO, "shim: not come to: read %s write %s tell %s\n", read_plan, write_plan, tell_plan);
    }
}

// How many of n bytes the next call of a plan moves, or -1 where it fails.
static ssize_t next(const char **plan, size_t n)
{
    if (!**plan) {
        return n;
    }
    char *rest;
    long entry = strtol(*plan, &rest, 10);
    *plan = rest + (*rest == ',');
    if (entry < 0) {
        errno = -entry;
        return -1;
    }
    return (size_t)entry < n ? (size_t)entry : n;
}

ssize_t read(int descriptor, void *bytes, size_t n)
{
    ssize_t most = next(&read_plan, n);
    return most < 0 ? -1 : syscall(SYS_read, descriptor, bytes, most);
}

ssize_t write(int descriptor, const void *bytes, size_t n)
{
    ssize_t most = next(descriptor == STDERR_FILENO ? &tell_plan : &write_plan, n);
    return most < 0 ? -1 : syscall(SYS_write, descriptor, bytes, most);
}
