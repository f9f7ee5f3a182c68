/* Stands between a program and the C library, and refuses some of its calls for memory. `bench/memory.py` builds it and loads it before the program.
 *
 * Calls are counted from 1 on, once the program begins. Those from REFUSE_FIRST to REFUSE_LAST get no memory. The descriptor REFUSE_LOG gets a byte
 * for each call: `.` where it was handed on, `!` where it was refused.
 */
#define _GNU_SOURCE
#include <dlfcn.h>
#include <errno.h>
#include <stdlib.h>
#include <unistd.h>

static void *(*real_malloc)(size_t);
static void *(*real_calloc)(size_t, size_t);
static void *(*real_realloc)(void *, size_t);
static unsigned long count, first, last;
static int to_log;

/* The calls of the C library itself, found by the first call of all. */
static void find_calls(void)
{
    real_malloc = (void *(*)(size_t))dlsym(RTLD_NEXT, "malloc");
    real_calloc = (void *(*)(size_t, size_t))dlsym(RTLD_NEXT, "calloc");
    real_realloc = (void *(*)(void *, size_t))dlsym(RTLD_NEXT, "realloc");
}

static unsigned long number(const char *name)
{
    const char *digits = getenv(name);
    return digits ? strtoul(digits, NULL, 10) : 0;
}

__attribute__((constructor)) static void begin(void)
{
    if (!real_malloc)
        find_calls();
    first = number("REFUSE_FIRST");
    last = number("REFUSE_LAST");
    to_log = number("REFUSE_LOG");
}

/* Whether this call is to be refused. Before the program begins, and without a log, none is. */
static int is_refused(void)
{
    int refused, before = errno;
    if (!real_malloc)
        find_calls();
    if (!to_log)
        return 0;
    count++;
    refused = first <= count && count <= last;
    if (write(to_log, refused ? "!" : ".", 1) != 1)
        abort();
    errno = refused ? ENOMEM : before;
    return refused;
}

void *malloc(size_t size)
{
    return is_refused() ? NULL : real_malloc(size);
}

void *calloc(size_t many, size_t size)
{
    return is_refused() ? NULL : real_calloc(many, size);
}

void *realloc(void *block, size_t size)
{
    return is_refused() ? NULL : real_realloc(block, size);
}
