/* The memory of the library for C, library/heap.c: blocks of two heaps in turn that are taken, made longer or shorter and let
 * go at random, each with bytes of its own, and the same where the Nth growth is refused. tests/library_c.py compiles and
 * runs it.
 *
 *     library_heap STEPS
 *
 * It is linked with --wrap=malloc and so on, as library_c.c. The last line is 'N passed, M failed'.
 */
#include "heap.h"

#include <errno.h>
#include <stdbool.h>
#include <stdint.h>
#include <stdio.h>
#include <stdlib.h>
#include <string.h>

enum { BLOCKS = 700, HEAPS = 2, MOST_BYTES = 3000, PIECES = 60000 };

struct tried {
    bool is_there;
    void *at;
};

struct tried rattle_alloc(size_t size, size_t align);
struct tried rattle_realloc(void *at, size_t kept, size_t size, size_t align);
void rattle_dealloc(void *at);

static unsigned passed, failed;
static long blocks, calls, refused_call = -1;
static uint32_t seed;

void *__real_malloc(size_t size);
void *__real_calloc(size_t count, size_t size);
void *__real_realloc(void *block, size_t size);
int __real_posix_memalign(void **block, size_t align, size_t size);
void __real_free(void *block);

void *__wrap_malloc(size_t size) {
    void *block = calls++ == refused_call ? NULL : __real_malloc(size);
    blocks += block != NULL;
    return block;
}

void *__wrap_calloc(size_t count, size_t size) {
    void *block = calls++ == refused_call ? NULL : __real_calloc(count, size);
    blocks += block != NULL;
    return block;
}

void *__wrap_realloc(void *block, size_t size) {
    return calls++ == refused_call ? NULL : __real_realloc(block, size);
}

int __wrap_posix_memalign(void **block, size_t align, size_t size) {
    int code = calls++ == refused_call ? ENOMEM : __real_posix_memalign(block, align, size);
    blocks += code == 0;
    return code;
}

void __wrap_free(void *block) {
    blocks -= block != NULL;
    __real_free(block);
}

static void row(bool good, const char *what) {
    passed += good;
    failed += !good;
    if (!good)
        printf("FAILED: %s\n", what);
}

#define ROW(condition) row(condition, #condition)

static uint32_t drawn(uint32_t below) {
    seed = seed * 1664525 + 1013904223;
    return (seed >> 8) % below;
}

/* Most blocks are small, and some a little longer than a piece. */
static size_t drawn_size(void) {
    uint32_t kind = drawn(8);
    return kind == 0 ? drawn(MOST_BYTES) : kind == 1 ? ACPIDIS_PIECES + drawn(64) - (ACPIDIS_PIECES > 32 ? 32 : 0) : drawn(200);
}

struct block {
    unsigned char *at;
    size_t size;
    unsigned char byte;
};

static struct block held[HEAPS][BLOCKS];

static bool has_bytes(const struct block *block, size_t size) {
    size_t at;
    for (at = 0; at < size; at++)
        if (block->at[at] != block->byte)
            return false;
    return true;
}

static void fill(struct block *block) {
    block->byte = (unsigned char)drawn(256);
    memset(block->at, block->byte, block->size);
}

/* Takes a block, makes it of another size, or lets it go. Where a growth is refused it is as it was. */
static bool step(struct block *block) {
    size_t size = drawn_size(), kept;
    struct tried tried;
    if (block->at == NULL) {
        tried = rattle_alloc(size, 1);
        if (!tried.is_there)
            return tried.at != NULL;
        block->at = tried.at;
        block->size = size;
        fill(block);
        return (uintptr_t)tried.at % 16 == 0;
    }
    if (!has_bytes(block, block->size))
        return false;
    if (drawn(2) == 0) {
        rattle_dealloc(block->at);
        block->at = NULL;
        return true;
    }
    kept = drawn((uint32_t)(block->size < size ? block->size : size) + 1);
    tried = rattle_realloc(block->at, kept, size, 1);
    if (!tried.is_there)
        return tried.at != NULL && has_bytes(block, block->size);
    block->at = tried.at;
    block->size = size;
    if (!has_bytes(block, kept) || (uintptr_t)tried.at % 16 != 0)
        return false;
    fill(block);
    return true;
}

/* So many steps, of each heap some hundred at a time; then all is let go. */
static bool steps(long count) {
    struct acpidis_heap heaps[HEAPS] = { 0 };
    bool good = true;
    long done;
    int which, number;
    for (done = 0; done < count; done += 300) {
        which = (int)drawn(HEAPS);
        acpidis_heap_enter(&heaps[which]);
        for (number = 0; number < 300; number++)
            good = step(&held[which][drawn(BLOCKS)]) && good;
        acpidis_heap_leave();
    }
    for (which = 0; which < HEAPS; which++) {
        acpidis_heap_enter(&heaps[which]);
        for (number = 0; number < BLOCKS; number++) {
            struct block *block = &held[which][number];
            if (block->at == NULL)
                continue;
            good = has_bytes(block, block->size) && good;
            rattle_dealloc(block->at);
            block->at = NULL;
        }
        acpidis_heap_leave();
    }
    return good;
}

/* A heap whose pieces are all let go is as at first, and takes no more large blocks than one run of them wants. */
static void try_rounds(void) {
    struct acpidis_heap heap = { 0 };
    long round, number, most = 0;
    static void *taken[PIECES];
    for (round = 0; round < 10; round++) {
        acpidis_heap_enter(&heap);
        for (number = 0; number < PIECES; number++)
            taken[number] = rattle_alloc(100, 1).at;
        if (round == 0)
            most = blocks;
        for (number = 0; number < PIECES; number++)
            rattle_dealloc(taken[number]);
        for (number = 0; number < PIECES; number++)
            taken[number] = rattle_alloc(100, 1).at;
        if (blocks > most)
            most = -1;
        for (number = 0; number < PIECES; number++)
            rattle_dealloc(taken[number]);
        acpidis_heap_leave();
        if (blocks != 0 || heap.newest != NULL)
            most = -1;
    }
    ROW(most > 0);
}

static void try_sizes(void) {
    struct acpidis_heap heap = { 0 };
    struct tried tried;
    acpidis_heap_enter(&heap);
    ROW(!rattle_alloc(SIZE_MAX, 1).is_there);
    ROW(!rattle_alloc(PTRDIFF_MAX, 1).is_there);
    tried = rattle_alloc(8, 8);
    ROW(tried.is_there && !rattle_realloc(tried.at, 8, PTRDIFF_MAX, 8).is_there);
    rattle_dealloc(tried.at);
    tried = rattle_alloc(5000, 8);
    ROW(tried.is_there && !rattle_realloc(tried.at, 8, PTRDIFF_MAX, 8).is_there);
    rattle_dealloc(tried.at);
    acpidis_heap_leave();
    ROW(blocks == 0);
}

int main(int count, char **words) {
    long most = count > 1 ? atol(words[1]) : 300000, number;
    bool good;
    try_sizes();
    try_rounds();
    ROW(steps(most) && blocks == 0);
    for (good = true, number = 0; number < 300 && good; number++) {
        calls = 0;
        refused_call = number;
        seed = (uint32_t)number;
        good = steps(most / 100) && blocks == 0;
    }
    refused_call = -1;
    ROW(good);
    printf("%u passed, %u failed\n", passed, failed);
    return failed != 0;
}
