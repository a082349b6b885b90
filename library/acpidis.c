/* The library's edge: it refuses null pointers and lengths that no object has, which the proved functions can't see, and
 * calls them, each with the memory of its set. What they promise stands in crates/acpidis_c/src/lib.rt. */
#include "acpidis.h"
#include "heap.h"

#include <stdlib.h>
#include <string.h>

#ifndef ACPIDIS_VERSION
#define ACPIDIS_VERSION "unknown"
#endif

/* A set as the proved functions have it: closed where all is 0. */
struct held {
    void *at;
    bool full;
};

/* What an open set leads to. */
struct state {
    struct acpidis_heap heap;
    struct held held;
};

struct told {
    uint32_t code, status;
    size_t text, errors;
};

uint32_t acpidis_c_open(struct held *set);
void acpidis_c_close(struct held *set);
uint32_t acpidis_c_add(struct held *set, const void *name, size_t name_length, bool placed, uint64_t address,
                       const void *bytes, size_t length);
uint32_t acpidis_c_counts(struct held *set, const void *text, size_t length, size_t *line);
uint32_t acpidis_c_options(struct held *set, bool any_sum, bool any_run, bool unknown_zero);
uint32_t acpidis_c_run(struct held *set, bool check);
struct told acpidis_c_told(struct held *set);
uint32_t acpidis_c_copy(struct held *set, bool errors, size_t from, void *out, size_t length);

struct sizes {
    uint32_t code;
    acpidis_sizes of;
};

uint32_t acpidis_c_list(struct held *set, bool bodies);
struct sizes acpidis_c_sizes(struct held *set);
uint32_t acpidis_c_tables(struct held *set, size_t from, size_t *out, size_t count);
uint32_t acpidis_c_rows(struct held *set, size_t from, acpidis_row *out, size_t count);
uint32_t acpidis_c_methods(struct held *set, size_t from, acpidis_method *out, size_t count);
uint32_t acpidis_c_bodies(struct held *set, size_t from, acpidis_body *out, size_t count);
uint32_t acpidis_c_texts(struct held *set, uint32_t of, size_t from, void *out, size_t length);

static const char *const words[] = {
    "Ok", "Closed", "Open", "NoMemory", "BadName", "TooManyTables", "TooLong", "BadLine", "NotRun", "OutOfRange",
    "BadOptions", "Null", "Refused",
};

static const char *const kinds[] = {
    "Scope", "Name", "Method", "Alias", "Device", "Processor", "PowerResource", "ThermalZone", "Mutex", "Event", "Region",
    "DataRegion", "Field", "BufferField",
};

static const char *const faults[] = {
    "Ok", "Truncated", "PkgBits", "PkgPast", "BadName", "UnknownOp", "NotHere", "StrayElse", "UnknownName", "EmptyName",
    "NestedMethod", "NestedScope", "ModuleCode", "BadCount", "TooDeep",
};

#define WORD(words, number) ((number) < sizeof(words) / sizeof *(words) ? (words)[number] : "unknown")

const char *acpidis_words(acpidis_code code) {
    return WORD(words, (unsigned)code);
}

const char *acpidis_kind_words(uint32_t kind) {
    return WORD(kinds, kind);
}

const char *acpidis_fault_words(uint32_t fault) {
    return WORD(faults, fault);
}

const char *acpidis_version(void) {
    return ACPIDIS_VERSION;
}

/* Whether so many bytes can't be at a pointer. */
static bool is_null(const void *bytes, size_t length) {
    return bytes == NULL && length != 0;
}

/* A pointer that isn't null, for no bytes. */
static const void *somewhere(const void *bytes) {
    return bytes == NULL ? "" : bytes;
}

/* Calls a proved function on what a set holds, a closed one where it is closed. */
#define CALL(set, answer, call) \
    do { \
        struct state closed = { 0 }, *state = (set)->full ? (set)->at : &closed; \
        struct held *held = &state->held; \
        acpidis_heap_enter(&state->heap); \
        (answer) = (call); \
        acpidis_heap_leave(); \
    } while (0)

acpidis_code acpidis_open(acpidis_set *set) {
    struct state *state;
    uint32_t code;
    if (set == NULL)
        return ACPIDIS_NULL;
    if (set->full)
        return ACPIDIS_OPEN;
    state = calloc(1, sizeof *state);
    if (state == NULL)
        return ACPIDIS_NO_MEMORY;
    set->at = state;
    set->full = true;
    CALL(set, code, acpidis_c_open(held));
    if (code != ACPIDIS_OK)
        acpidis_close(set);
    return (acpidis_code)code;
}

void acpidis_close(acpidis_set *set) {
    struct state *state;
    if (set == NULL || !set->full)
        return;
    state = set->at;
    acpidis_heap_enter(&state->heap);
    acpidis_c_close(&state->held);
    acpidis_heap_leave();
    free(state);
    set->at = NULL;
    set->full = false;
}

acpidis_code acpidis_add(acpidis_set *set, const char *name, const uint64_t *address, const void *bytes, size_t length) {
    uint32_t code;
    if (set == NULL || name == NULL || is_null(bytes, length))
        return ACPIDIS_NULL;
    if (length > PTRDIFF_MAX)
        return ACPIDIS_TOO_LONG;
    CALL(set, code, acpidis_c_add(held, name, strlen(name), address != NULL, address == NULL ? 0 : *address,
                                  somewhere(bytes), length));
    return (acpidis_code)code;
}

acpidis_code acpidis_set_counts(acpidis_set *set, const void *text, size_t length, size_t *line) {
    size_t place = 0;
    uint32_t code = ACPIDIS_NULL;
    if (length > PTRDIFF_MAX)
        code = ACPIDIS_TOO_LONG;
    else if (set != NULL && !is_null(text, length))
        CALL(set, code, acpidis_c_counts(held, somewhere(text), length, &place));
    if (line != NULL)
        *line = place;
    return (acpidis_code)code;
}

acpidis_code acpidis_set_options(acpidis_set *set, unsigned options) {
    uint32_t code;
    if (set == NULL)
        return ACPIDIS_NULL;
    if (options > (ACPIDIS_ANY_SUM | ACPIDIS_ANY_RUN | ACPIDIS_UNKNOWN_ZERO))
        return ACPIDIS_BAD_OPTIONS;
    CALL(set, code, acpidis_c_options(held, options & ACPIDIS_ANY_SUM, options & ACPIDIS_ANY_RUN,
                                      options & ACPIDIS_UNKNOWN_ZERO));
    return (acpidis_code)code;
}

acpidis_code acpidis_run(acpidis_set *set, bool check) {
    uint32_t code = ACPIDIS_NULL;
    if (set != NULL)
        CALL(set, code, acpidis_c_run(held, check));
    return (acpidis_code)code;
}

acpidis_code acpidis_ended(acpidis_set *set, int *status, size_t *text, size_t *errors) {
    struct told told = { ACPIDIS_NULL, 0, 0, 0 };
    if (set != NULL)
        CALL(set, told, acpidis_c_told(held));
    if (status != NULL)
        *status = (int)told.status;
    if (text != NULL)
        *text = told.text;
    if (errors != NULL)
        *errors = told.errors;
    return (acpidis_code)told.code;
}

/* What is wrong with room for so many values of a size. */
static acpidis_code room(const acpidis_set *set, const void *out, size_t count, size_t size) {
    if (set == NULL || is_null(out, count))
        return ACPIDIS_NULL;
    return count > PTRDIFF_MAX / size ? ACPIDIS_OUT_OF_RANGE : ACPIDIS_OK;
}

static acpidis_code copy(acpidis_set *set, bool errors, size_t from, void *out, size_t length) {
    char none[1];
    uint32_t code = room(set, out, length, 1);
    if (code == ACPIDIS_OK)
        CALL(set, code, acpidis_c_copy(held, errors, from, out == NULL ? none : out, length));
    return (acpidis_code)code;
}

acpidis_code acpidis_text(acpidis_set *set, size_t from, void *out, size_t length) {
    return copy(set, false, from, out, length);
}

acpidis_code acpidis_errors(acpidis_set *set, size_t from, void *out, size_t length) {
    return copy(set, true, from, out, length);
}

acpidis_code acpidis_list(acpidis_set *set, bool bodies) {
    uint32_t code = ACPIDIS_NULL;
    if (set != NULL)
        CALL(set, code, acpidis_c_list(held, bodies));
    return (acpidis_code)code;
}

acpidis_code acpidis_listed(acpidis_set *set, acpidis_sizes *sizes) {
    struct sizes told;
    if (set == NULL || sizes == NULL)
        return ACPIDIS_NULL;
    CALL(set, told, acpidis_c_sizes(held));
    *sizes = told.of;
    return (acpidis_code)told.code;
}

/* A function that copies values of a type. */
#define COPIES(name, type) \
    acpidis_code acpidis_##name(acpidis_set *set, size_t from, type *out, size_t count) { \
        type none; \
        uint32_t code = room(set, out, count, sizeof none); \
        if (code == ACPIDIS_OK) \
            CALL(set, code, acpidis_c_##name(held, from, out == NULL ? &none : out, count)); \
        return (acpidis_code)code; \
    }

COPIES(tables, size_t)
COPIES(rows, acpidis_row)
COPIES(methods, acpidis_method)
COPIES(bodies, acpidis_body)

static acpidis_code texts(acpidis_set *set, uint32_t of, size_t from, void *out, size_t length) {
    char none[1];
    uint32_t code = room(set, out, length, 1);
    if (code == ACPIDIS_OK)
        CALL(set, code, acpidis_c_texts(held, of, from, out == NULL ? none : out, length));
    return (acpidis_code)code;
}

acpidis_code acpidis_row_texts(acpidis_set *set, size_t from, void *out, size_t length) {
    return texts(set, 0, from, out, length);
}

acpidis_code acpidis_method_texts(acpidis_set *set, size_t from, void *out, size_t length) {
    return texts(set, 1, from, out, length);
}

acpidis_code acpidis_body_texts(acpidis_set *set, size_t from, void *out, size_t length) {
    return texts(set, 2, from, out, length);
}
