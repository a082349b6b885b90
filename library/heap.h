/* The memory of a set: what its calls take are pieces of a few large blocks, which are let go whole. */
#ifndef ACPIDIS_HEAP_H
#define ACPIDIS_HEAP_H

#include <stddef.h>

/* A block of more bytes than this is one of malloc's own. With 0 each is, so that valgrind sees it. */
#ifndef ACPIDIS_PIECES
#define ACPIDIS_PIECES 1024
#endif

/* Nothing is taken where all is 0. */
struct acpidis_heap {
    struct large *newest;                /* the large block of which pieces are cut, before those that are full, */
    char *next;                          /* where its next piece begins, */
    size_t left;                         /* how many bytes are left there, */
    size_t grown;                        /* and how many it has */
    void *idle[ACPIDIS_PIECES / 16 + 2]; /* pieces that were let go, by their sizes in units of 16 bytes */
};

/* Until `acpidis_heap_leave` the calls of this thread take memory of this heap. */
void acpidis_heap_enter(struct acpidis_heap *heap);

/* Lets go each large block of which no piece is taken. */
void acpidis_heap_leave(void);

#endif
