/* The memory that the library takes: that of malloc. Where there is none, `ok` is 0 and the pointer is not null. No block of the library asks for more than the
 * alignment that malloc gives. */
#include <stdint.h>
#include <stdlib.h>

/* fails.c has others. */
#ifndef TB_MALLOC
#define TB_MALLOC malloc
#define TB_REALLOC realloc
#define TB_FREE free
#endif

struct tried {
    uint8_t ok;
    void *at;
};

struct tried rattle_alloc(size_t size, size_t align);
struct tried rattle_realloc(void *at, size_t kept, size_t size, size_t align);
void rattle_dealloc(void *at);

static struct tried tried(void *at) {
    static _Alignas(16) char none[16];
    return at ? (struct tried){1, at} : (struct tried){0, none};
}

struct tried rattle_alloc(size_t size, size_t align) { return tried(TB_MALLOC(size ? size : align)); }

struct tried rattle_realloc(void *at, size_t kept, size_t size, size_t align) {
    (void)kept;
    return tried(TB_REALLOC(at, size ? size : align));
}

void rattle_dealloc(void *at) { TB_FREE(at); }
