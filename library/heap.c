/* What the proved functions ask for memory: the three functions that the kit defines over malloc, realloc and free.
 *
 * A run takes some hundred thousand small blocks and lets them go together. Of malloc each costs more to let go than to
 * take, so small ones are cut here of large ones. A piece that is let go serves the next one of its size; a large block is
 * let go at the end of the call that leaves no piece of it taken. Where malloc refuses, so do these. */
#define _DEFAULT_SOURCE /* madvise */
#include "heap.h"

#include <stdbool.h>
#include <stdint.h>
#include <stdlib.h>
#include <string.h>
#include <sys/mman.h>

/* Whether there is memory, and where; some other place if there is none. */
struct tried {
    bool is_there;
    void *at;
};

/* What stands before a block: how far from the start of its large block it lies, 0 where it is malloc's own; and the bytes
 * that a piece takes with this. */
struct head {
    uint32_t from, size;
};

struct large {
    struct large *next;
    size_t taken; /* how many pieces are */
};

/* Blocks begin at multiples of UNIT, as malloc's. */
enum { UNIT = 16, LEAST = 1 << 14, MOST = 1 << 21 };

static __thread struct acpidis_heap *heap __attribute__((tls_model("initial-exec")));

static struct head *head_of(void *at) {
    return (struct head *)at - 1;
}

static bool is_piece(void *at) {
    return head_of(at)->from != 0;
}

static struct large *large_of(void *piece) {
    return (struct large *)((char *)piece - head_of(piece)->from);
}

void acpidis_heap_enter(struct acpidis_heap *entered) {
    heap = entered;
}

void acpidis_heap_leave(void) {
    struct large **link = &heap->newest, *large;
    if (heap->newest != NULL && heap->newest->taken == 0)
        heap->next = NULL, heap->left = heap->grown = 0;
    while ((large = *link) != NULL)
        if (large->taken == 0) {
            *link = large->next;
            free(large);
        } else
            link = &large->next;
    /* Some of these lie in blocks that are gone. */
    memset(heap->idle, 0, sizeof heap->idle);
    heap = NULL;
}

/* A large block. One of the most bytes is one page where the system has pages of that size, which it gives sooner than 512
 * small ones. */
static void *large_block(size_t size) {
    void *block;
    if (size < MOST)
        return malloc(size);
    if (posix_memalign(&block, MOST, size) != 0)
        return NULL;
#ifdef MADV_HUGEPAGE
    (void)madvise(block, size, MADV_HUGEPAGE);
#endif
    return block;
}

/* Takes another large block, each time twice as large as before. */
static bool grow(void) {
    size_t size = heap->grown == 0 ? LEAST : heap->grown < MOST ? 2 * heap->grown : MOST;
    struct large *large = large_block(size);
    if (large == NULL)
        return false;
    large->next = heap->newest;
    large->taken = 0;
    heap->newest = large;
    heap->next = (char *)large + sizeof *large + UNIT;
    heap->left = size - sizeof *large - UNIT;
    heap->grown = size;
    return true;
}

static void *take_own(size_t size) {
    char *own = size > PTRDIFF_MAX - UNIT ? NULL : malloc(size + UNIT);
    if (own == NULL)
        return NULL;
    head_of(own + UNIT)->from = 0;
    return own + UNIT;
}

/* Cuts a piece of the newest large block, or of one more. */
static void *cut(size_t whole) {
    char *piece;
    if (whole > heap->left && !grow())
        return NULL;
    piece = heap->next;
    heap->next += whole;
    heap->left -= whole;
    head_of(piece)->from = (uint32_t)(piece - (char *)heap->newest);
    head_of(piece)->size = (uint32_t)whole;
    return piece;
}

static void *take(size_t size) {
    size_t whole = (size + sizeof(struct head) + UNIT - 1) / UNIT * UNIT;
    void **idle, *piece;
    if (size > ACPIDIS_PIECES)
        return take_own(size);
    idle = &heap->idle[whole / UNIT];
    piece = *idle;
    if (piece != NULL)
        *idle = *(void **)piece;
    else {
        piece = cut(whole);
        if (piece == NULL)
            return NULL;
    }
    large_of(piece)->taken++;
    return piece;
}

static void let_go(void *at) {
    void **idle;
    if (!is_piece(at)) {
        free((char *)at - UNIT);
        return;
    }
    idle = &heap->idle[head_of(at)->size / UNIT];
    large_of(at)->taken--;
    *(void **)at = *idle;
    *idle = at;
}

static void *resize(void *at, size_t kept, size_t size) {
    char *grown;
    if (!is_piece(at) && size > ACPIDIS_PIECES) {
        grown = size > PTRDIFF_MAX - UNIT ? NULL : realloc((char *)at - UNIT, size + UNIT);
        return grown == NULL ? NULL : grown + UNIT;
    }
    grown = take(size);
    if (grown != NULL) {
        memcpy(grown, at, kept < size ? kept : size);
        let_go(at);
    }
    return grown;
}

static struct tried tried(void *at) {
    static char none;
    struct tried tried = { at != NULL, at == NULL ? &none : at };
    return tried;
}

struct tried rattle_alloc(size_t size, size_t align) {
    (void)align; /* at most UNIT */
    return tried(take(size));
}

struct tried rattle_realloc(void *at, size_t kept, size_t size, size_t align) {
    (void)align;
    return tried(resize(at, kept, size));
}

void rattle_dealloc(void *at) {
    let_go(at);
}
