/* Loaded into a program ahead of the C library, this refuses some of its growths, or one start of a thread.
 *
 * REFUSE_GROWTH=N refuses the Nth call of malloc, calloc and realloc, be it the program's own or the C library's, as at
 * the start of a thread; REFUSE_FROM=N that call and all later ones; REFUSE_START=N the Nth start. Once something is
 * refused the variable REFUSED, where there is one, is 1. At the program's end file 3 gets a line: how many growths
 * there were, how many starts, how many of these were refused, how many joins, how many writes to standard output, and
 * how many blocks of memory were let go behind the last of these. */
#define _GNU_SOURCE
#include <dlfcn.h>
#include <errno.h>
#include <pthread.h>
#include <stdatomic.h>
#include <stdio.h>
#include <stdlib.h>
#include <unistd.h>

extern void *__libc_malloc(size_t);
extern void *__libc_calloc(size_t, size_t);
extern void *__libc_realloc(void *, size_t);
extern void __libc_free(void *);

static atomic_ulong growths, starts, refused_starts, joins, writes, freed;

static unsigned long number_in(const char *name) {
    const char *word = getenv(name);
    return word ? strtoul(word, NULL, 10) : 0;
}

/* Changes the variable in its place, since setenv would take memory. */
static void tell_refused(void) {
    char *word = getenv("REFUSED");
    if (word && *word) *word = '1';
}

static int refuses_growth(void) {
    unsigned long number = atomic_fetch_add(&growths, 1) + 1, from = number_in("REFUSE_FROM");
    if (number != number_in("REFUSE_GROWTH") && (from == 0 || number < from)) return 0;
    tell_refused();
    errno = ENOMEM;
    return 1;
}

void *malloc(size_t size) { return refuses_growth() ? NULL : __libc_malloc(size); }

void *calloc(size_t count, size_t size) { return refuses_growth() ? NULL : __libc_calloc(count, size); }

void *realloc(void *old, size_t size) { return refuses_growth() ? NULL : __libc_realloc(old, size); }

void free(void *block) {
    atomic_fetch_add(&freed, 1);
    __libc_free(block);
}

ssize_t write(int file, const void *bytes, size_t count) {
    ssize_t (*send)(int, const void *, size_t) = dlsym(RTLD_NEXT, "write");
    if (file == STDOUT_FILENO) {
        atomic_fetch_add(&writes, 1);
        atomic_store(&freed, 0);
    }
    return send(file, bytes, count);
}

int pthread_create(pthread_t *thread, const pthread_attr_t *attributes, void *(*run)(void *), void *argument) {
    int (*create)(pthread_t *, const pthread_attr_t *, void *(*)(void *), void *) = dlsym(RTLD_NEXT, "pthread_create");
    unsigned long number = atomic_fetch_add(&starts, 1) + 1;
    int is_refused = number == number_in("REFUSE_START");
    if (is_refused) tell_refused();
    int fault = is_refused ? EAGAIN : create(thread, attributes, run, argument);
    if (fault) atomic_fetch_add(&refused_starts, 1);
    return fault;
}

int pthread_join(pthread_t thread, void **result) {
    int (*join)(pthread_t, void **) = dlsym(RTLD_NEXT, "pthread_join");
    atomic_fetch_add(&joins, 1);
    return join(thread, result);
}

void _exit(int status) {
    void (*leave)(int) = dlsym(RTLD_NEXT, "_exit");
    char line[150];
    const char *form = "%lu %lu %lu %lu %lu %lu\n";
    int length = snprintf(line, sizeof line, form, growths, starts, refused_starts, joins, writes, freed);
    if (write(3, line, length) == length) leave(status);
    leave(status);
    __builtin_unreachable();
}
