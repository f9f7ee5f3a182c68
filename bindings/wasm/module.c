/* What the module has beside the library: a heap, and calls for a host whose pointers and sizes are numbers of 32 bits.
 *
 *     tb_alloc(size) -> pointer      a block of so many bytes, or 0 where there is no memory. It lies on a multiple of 16
 *     tb_dealloc(pointer)            gives a block back
 *     tb_read(pattern, pattern_size, flags, flags_size, options, out) -> status
 *                                    as tb_read of titaniumbat.h; `out` has 184 bytes, which need not be set before
 *     tb_free(out)                   gives back all that a reading holds. It then holds nothing
 *     tb_version() -> 1
 *
 * In memory all is where it is on x86-64: a pointer has a place of 8 bytes, of which the lower 4 count. */
typedef unsigned int word;
typedef unsigned long long place;
typedef unsigned char byte;

#define EXPORT(name) __attribute__((export_name(name)))

/* Blocks of powers of two, each size with a list of those that are free. Before each block stand 16 bytes, of which the first says which power. */
enum { HEAD = 16, LEAST = 5, MOST = 31, PAGE = 65536, MORE_PAGES = 16 };

extern byte __heap_base;
static byte *top;
static place room;
static byte *free_blocks[MOST + 1];

static unsigned power_for(place size) {
    unsigned power = LEAST;
    while (power <= MOST && ((place)1 << power) < size + HEAD) power++;
    return power;
}

/* Takes memory that was never used. */
static byte *fresh(place size) {
    if (!top) {
        top = &__heap_base + (HEAD - (word)&__heap_base % HEAD) % HEAD;
        room = (place)__builtin_wasm_memory_size(0) * PAGE - (word)top;
    }
    if (room < size) {
        place pages = (size - room + PAGE - 1) / PAGE + MORE_PAGES;
        if (pages > PAGE || __builtin_wasm_memory_grow(0, (word)pages) == (word)-1) return 0;
        room += pages * PAGE;
    }
    byte *at = top;
    top += size;
    room -= size;
    return at;
}

static byte *taken(place size) {
    unsigned power = power_for(size);
    if (power > MOST) return 0;
    byte *at = free_blocks[power];
    if (at) {
        free_blocks[power] = *(byte **)(at + HEAD);
    } else if (!(at = fresh((place)1 << power))) {
        return 0;
    }
    *at = (byte)power;
    return at + HEAD;
}

static void given_back(byte *block) {
    byte *at = block - HEAD;
    *(byte **)block = free_blocks[*at];
    free_blocks[*at] = at;
}

EXPORT("tb_alloc") byte *tb_alloc(word size) { return taken(size); }
EXPORT("tb_dealloc") void tb_dealloc(byte *block) { given_back(block); }

/* What the library takes from outside: heap.c of bindings/c in places of 8 bytes. Where there is no memory, `ok` is 0 and the pointer is not null. */
struct tried {
    place ok, at;
};

static struct tried tried(byte *at) {
    static _Alignas(HEAD) byte none[HEAD];
    struct tried it = {at != 0, (word)(at ? at : none)};
    return it;
}

struct tried rattle_alloc(place size, place align) { return tried(taken(size ? size : align)); }

struct tried rattle_realloc(byte *at, place kept, place size, place align) {
    size = size ? size : align;
    if (power_for(size) <= at[-HEAD]) return tried(at);
    byte *to = taken(size);
    if (to) {
        __builtin_memcpy(to, at, (word)(kept < size ? kept : size));
        given_back(at);
    }
    return tried(to);
}

void rattle_dealloc(byte *at) { given_back(at); }

/* tb_reading of titaniumbat.h in places of 8 bytes: its slices stand one after the other, but for a refusal's numbers at the end. */
struct reading {
    word mode, spare;
    struct {
        place at, size;
    } slices[9];
    word numbers[4];
    struct {
        word start, end;
    } first, second;
};

_Static_assert(sizeof(struct reading) == 184, "as in titaniumbat.h");

static void cleared(struct reading *it) {
    static place nothing;
    __builtin_memset(it, 0, sizeof *it);
    for (int slice = 0; slice < 9; slice++) it->slices[slice].at = (word)&nothing;
}

extern word library_read(const char *pattern, place pattern_size, const char *flags, place flags_size, const void *options, struct reading *out) __asm__("tb_read");

EXPORT("tb_read") word read_pattern(const char *pattern, word pattern_size, const char *flags, word flags_size, const void *options, struct reading *out) {
    cleared(out);
    return library_read(pattern, pattern_size, flags, flags_size, options, out);
}

EXPORT("tb_free") void free_reading(struct reading *it) {
    for (int slice = 0; slice < 9; slice++)
        if (it->slices[slice].size) given_back((byte *)(word)it->slices[slice].at);
    cleared(it);
}

extern word library_version(void) __asm__("tb_version");

EXPORT("tb_version") word version(void) { return library_version(); }
