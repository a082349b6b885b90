/* Calls of the library for C that ask for what there isn't, in the wrong order, in two threads, many times, and with each
 * growth refused in turn. tests/library_c.py compiles and runs it.
 *
 *     library_c DUMP TEXT [SHORT]
 *
 * DUMP is a dump that has a listing, TEXT that listing, of a set where the dump is named "dump". It is linked with
 * --wrap=malloc and so on, so that it counts the blocks of memory and can refuse one. With ACPIDIS_PIECES as 0, for which the
 * edge is compiled anew, each is one of malloc's. Each row prints a line; the last line is 'N passed, M failed'. With SHORT
 * there are fewer sets.
 */
#define _GNU_SOURCE
#include <acpidis.h>

#include <errno.h>
#include <pthread.h>
#include <stdio.h>
#include <stdlib.h>
#include <string.h>

/* More growths than this are refused with a code. A small set's pieces are of one large block. */
#ifdef ACPIDIS_PIECES
enum { FEW = 20 };
#else
enum { FEW = 1 };
#endif

static unsigned passed, failed;
static unsigned char *dump, *wanted;
static size_t dump_length, wanted_length;

/* The blocks that the library holds, the growths since `calls` was set to 0, and the one that is refused. */
static __thread long blocks, calls, refused_call = -1;
static __thread int within;

void *__real_malloc(size_t size);
void *__real_calloc(size_t count, size_t size);
void *__real_realloc(void *block, size_t size);
int __real_posix_memalign(void **block, size_t align, size_t size);
void __real_free(void *block);

static int is_refused(void) {
    return within && calls++ == refused_call;
}

void *__wrap_malloc(size_t size) {
    void *block = is_refused() ? NULL : __real_malloc(size);
    if (within && block != NULL)
        blocks++;
    return block;
}

void *__wrap_calloc(size_t count, size_t size) {
    void *block = is_refused() ? NULL : __real_calloc(count, size);
    if (within && block != NULL)
        blocks++;
    return block;
}

void *__wrap_realloc(void *block, size_t size) {
    void *grown = is_refused() ? NULL : __real_realloc(block, size);
    if (within && block == NULL && grown != NULL)
        blocks++;
    return grown;
}

int __wrap_posix_memalign(void **block, size_t align, size_t size) {
    int code = is_refused() ? ENOMEM : __real_posix_memalign(block, align, size);
    if (within && code == 0)
        blocks++;
    return code;
}

void __wrap_free(void *block) {
    if (within && block != NULL)
        blocks--;
    __real_free(block);
}

static void row(int good, const char *what) {
    if (good)
        passed++;
    else {
        failed++;
        printf("FAILED: %s\n", what);
    }
}

#define ROW(condition) row(condition, #condition)

static unsigned char *read_file(const char *path, size_t *length) {
    FILE *file = fopen(path, "rb");
    unsigned char *bytes;
    if (file == NULL || fseek(file, 0, SEEK_END) != 0) {
        printf("FAILED: %s can't be read\n0 passed, 1 failed\n", path);
        exit(1);
    }
    *length = (size_t)ftell(file);
    rewind(file);
    bytes = malloc(*length + 1);
    if (bytes == NULL || fread(bytes, 1, *length, file) != *length)
        exit(1);
    fclose(file);
    return bytes;
}

/* Whether the text of the last run is the one that is wanted. */
static int has_text(acpidis_set *set) {
    int status = -1;
    size_t length = 0, errors = 1;
    unsigned char *text;
    int same;
    if (acpidis_ended(set, &status, &length, &errors) != ACPIDIS_OK || status != 0 || errors != 0)
        return 0;
    text = __real_malloc(length + 1);
    same = text != NULL && length == wanted_length && acpidis_text(set, 0, text, length) == ACPIDIS_OK &&
           memcmp(text, wanted, length) == 0;
    __real_free(text);
    return same;
}

/* Whether what a set has stands in its listing: each row and each method, and the lines of a body as many times as there
 * are bodies that can be read. Answers the first code that isn't ACPIDIS_OK. */
static acpidis_code values(acpidis_set *set, int *good) {
    acpidis_sizes sizes = {0};
    acpidis_row row;
    acpidis_method method;
    acpidis_body body;
    char path[64] = "", line[128] = "";
    size_t number, table = 9;
    acpidis_code code = acpidis_list(set, true);
    *good = 0;
    if (code == ACPIDIS_OK)
        code = acpidis_listed(set, &sizes);
    if (code != ACPIDIS_OK)
        return code;
    *good = sizes.tables == 1 && sizes.bodies == sizes.methods && acpidis_tables(set, 0, &table, 1) == ACPIDIS_OK && table == 0;
    for (number = 0; number < sizes.rows && *good; number++) {
        *good = acpidis_rows(set, number, &row, 1) == ACPIDIS_OK && row.path < sizeof path &&
                acpidis_row_texts(set, row.at, path, row.path) == ACPIDIS_OK;
        path[row.path] = '\0';
        snprintf(line, sizeof line, "\n  %s %s", path, acpidis_kind_words(row.kind));
        *good = *good && memmem(wanted, wanted_length, line, strlen(line)) != NULL;
    }
    for (number = 0; number < sizes.methods && *good; number++) {
        *good = acpidis_methods(set, number, &method, 1) == ACPIDIS_OK && acpidis_bodies(set, number, &body, 1) == ACPIDIS_OK &&
                method.path < sizeof path && acpidis_method_texts(set, method.at, path, method.path) == ACPIDIS_OK &&
                method.table == 0 && 36 + method.start + method.length <= dump_length && body.fault == 0 &&
                body.at + body.length <= sizes.body_texts;
        path[method.path] = '\0';
        snprintf(line, sizeof line, "\n  %s Method %u\n", path, (unsigned)method.flags & 7);
        *good = *good && memmem(wanted, wanted_length, line, strlen(line)) != NULL;
    }
    return code;
}

/* Opens, fills, runs and closes a set. Answers the first code that isn't ACPIDIS_OK. */
static acpidis_code whole(int *same) {
    acpidis_set set = ACPIDIS_CLOSED_SET;
    acpidis_code code = acpidis_open(&set);
    int listed = 0;
    *same = 0;
    if (code == ACPIDIS_OK)
        code = acpidis_add(&set, "dump", NULL, dump, dump_length);
    if (code == ACPIDIS_OK)
        code = acpidis_set_counts(&set, "\\NONE 1\n", 8, NULL);
    if (code == ACPIDIS_OK)
        code = acpidis_set_counts(&set, NULL, 0, NULL);
    if (code == ACPIDIS_OK)
        code = acpidis_run(&set, false);
    if (code == ACPIDIS_OK)
        *same = has_text(&set);
    if (code == ACPIDIS_OK)
        code = values(&set, &listed);
    *same = *same && code == ACPIDIS_OK && listed;
    acpidis_close(&set);
    return code;
}

static void try_nulls(void) {
    acpidis_set set = ACPIDIS_CLOSED_SET;
    size_t line = 7;
    acpidis_sizes sizes;
    ROW(acpidis_open(NULL) == ACPIDIS_NULL);
    acpidis_close(NULL);
    ROW(acpidis_add(NULL, "a", NULL, "", 0) == ACPIDIS_NULL);
    ROW(acpidis_set_options(NULL, 0) == ACPIDIS_NULL);
    ROW(acpidis_set_counts(NULL, "", 0, &line) == ACPIDIS_NULL && line == 0);
    ROW(acpidis_run(NULL, false) == ACPIDIS_NULL);
    ROW(acpidis_ended(NULL, NULL, NULL, NULL) == ACPIDIS_NULL);
    ROW(acpidis_text(NULL, 0, NULL, 0) == ACPIDIS_NULL);
    ROW(acpidis_errors(NULL, 0, NULL, 0) == ACPIDIS_NULL);
    ROW(acpidis_list(NULL, true) == ACPIDIS_NULL);
    ROW(acpidis_listed(NULL, &sizes) == ACPIDIS_NULL);
    ROW(acpidis_rows(NULL, 0, NULL, 0) == ACPIDIS_NULL);
    ROW(acpidis_body_texts(NULL, 0, NULL, 0) == ACPIDIS_NULL);
    ROW(acpidis_open(&set) == ACPIDIS_OK);
    ROW(acpidis_add(&set, NULL, NULL, "", 0) == ACPIDIS_NULL);
    ROW(acpidis_add(&set, "a", NULL, NULL, 1) == ACPIDIS_NULL);
    ROW(acpidis_set_counts(&set, NULL, 1, NULL) == ACPIDIS_NULL);
    ROW(acpidis_set_counts(&set, NULL, 0, NULL) == ACPIDIS_OK);
    ROW(acpidis_add(&set, "", NULL, NULL, 0) == ACPIDIS_OK);
    ROW(acpidis_run(&set, false) == ACPIDIS_OK);
    ROW(acpidis_ended(&set, NULL, NULL, NULL) == ACPIDIS_OK);
    ROW(acpidis_text(&set, 0, NULL, 1) == ACPIDIS_NULL);
    ROW(acpidis_text(&set, 0, NULL, 0) == ACPIDIS_OK);
    acpidis_close(&set);
    ROW(acpidis_open(&set) == ACPIDIS_OK && acpidis_add(&set, "dump", NULL, dump, dump_length) == ACPIDIS_OK);
    ROW(acpidis_list(&set, true) == ACPIDIS_OK);
    ROW(acpidis_listed(&set, NULL) == ACPIDIS_NULL);
    ROW(acpidis_tables(&set, 0, NULL, 1) == ACPIDIS_NULL && acpidis_tables(&set, 1, NULL, 0) == ACPIDIS_OK);
    ROW(acpidis_rows(&set, 0, NULL, 1) == ACPIDIS_NULL && acpidis_rows(&set, 0, NULL, 0) == ACPIDIS_OK);
    ROW(acpidis_methods(&set, 0, NULL, 1) == ACPIDIS_NULL && acpidis_methods(&set, 0, NULL, 0) == ACPIDIS_OK);
    ROW(acpidis_bodies(&set, 0, NULL, 1) == ACPIDIS_NULL && acpidis_bodies(&set, 0, NULL, 0) == ACPIDIS_OK);
    ROW(acpidis_row_texts(&set, 0, NULL, 1) == ACPIDIS_NULL && acpidis_row_texts(&set, 0, NULL, 0) == ACPIDIS_OK);
    acpidis_close(&set);
}

static void try_order(void) {
    acpidis_set set = ACPIDIS_CLOSED_SET;
    acpidis_sizes sizes;
    acpidis_row got;
    char byte;
    int round, same;
    for (round = 0; round < 2; round++) {
        ROW(acpidis_add(&set, "a", NULL, "", 0) == ACPIDIS_CLOSED);
        ROW(acpidis_set_options(&set, 0) == ACPIDIS_CLOSED);
        ROW(acpidis_set_counts(&set, "", 0, NULL) == ACPIDIS_CLOSED);
        ROW(acpidis_run(&set, false) == ACPIDIS_CLOSED);
        ROW(acpidis_ended(&set, NULL, NULL, NULL) == ACPIDIS_CLOSED);
        ROW(acpidis_text(&set, 0, &byte, 1) == ACPIDIS_CLOSED);
        ROW(acpidis_errors(&set, 0, &byte, 1) == ACPIDIS_CLOSED);
        ROW(acpidis_list(&set, false) == ACPIDIS_CLOSED);
        ROW(acpidis_listed(&set, &sizes) == ACPIDIS_CLOSED && sizes.rows == 0);
        ROW(acpidis_rows(&set, 0, &got, 1) == ACPIDIS_CLOSED);
        ROW(acpidis_row_texts(&set, 0, &byte, 0) == ACPIDIS_CLOSED);
        acpidis_close(&set);
        ROW(acpidis_open(&set) == ACPIDIS_OK);
        ROW(acpidis_open(&set) == ACPIDIS_OPEN);
        ROW(acpidis_ended(&set, NULL, NULL, NULL) == ACPIDIS_NOT_RUN);
        ROW(acpidis_text(&set, 0, &byte, 0) == ACPIDIS_NOT_RUN);
        ROW(acpidis_listed(&set, &sizes) == ACPIDIS_NOT_RUN && sizes.rows == 0);
        ROW(acpidis_rows(&set, 0, &got, 0) == ACPIDIS_NOT_RUN);
        ROW(acpidis_list(&set, true) == ACPIDIS_REFUSED);
        ROW(acpidis_add(&set, "dump", NULL, dump, dump_length) == ACPIDIS_OK);
        ROW(acpidis_list(&set, false) == ACPIDIS_OK && acpidis_listed(&set, &sizes) == ACPIDIS_OK);
        ROW(sizes.rows > 0 && sizes.methods > 0 && sizes.bodies == 0 && sizes.body_texts == 0);
        ROW(acpidis_ended(&set, NULL, NULL, NULL) == ACPIDIS_NOT_RUN);
        ROW(acpidis_run(&set, false) == ACPIDIS_OK && has_text(&set));
        ROW(acpidis_listed(&set, &sizes) == ACPIDIS_OK);
        ROW(acpidis_run(&set, false) == ACPIDIS_OK && has_text(&set));
        ROW(acpidis_set_options(&set, 0) == ACPIDIS_OK);
        ROW(acpidis_ended(&set, NULL, NULL, NULL) == ACPIDIS_NOT_RUN);
        ROW(acpidis_listed(&set, &sizes) == ACPIDIS_NOT_RUN);
        ROW(acpidis_run(&set, false) == ACPIDIS_OK && has_text(&set));
        acpidis_close(&set);
    }
    ROW(whole(&same) == ACPIDIS_OK && same);
}

/* Whether a set of this one dump is refused, with this on its error lines. */
static int is_refused_for(const void *bytes, size_t length, const char *words) {
    acpidis_set set = ACPIDIS_CLOSED_SET;
    int status = -1, good;
    size_t text = 1, errors = 0;
    char lines[200] = "";
    good = acpidis_open(&set) == ACPIDIS_OK && acpidis_add(&set, "a", NULL, bytes, length) == ACPIDIS_OK &&
           acpidis_run(&set, false) == ACPIDIS_OK && acpidis_ended(&set, &status, &text, &errors) == ACPIDIS_OK &&
           status == 1 && text == 0 && errors < sizeof lines && acpidis_errors(&set, 0, lines, errors) == ACPIDIS_OK &&
           strcmp(lines, words) == 0;
    acpidis_close(&set);
    if (!good)
        printf("status %d, %s", status, lines);
    return good;
}

static void try_limits(void) {
    acpidis_set set = ACPIDIS_CLOSED_SET;
    uint64_t address = UINT64_MAX;
    size_t line = 9, number, text = 0;
    acpidis_sizes sizes;
    acpidis_row got;
    unsigned char *large = calloc(1, 16777217);
    char part[4];
    ROW(acpidis_open(&set) == ACPIDIS_OK);
    ROW(acpidis_add(&set, "\xFF", NULL, "", 0) == ACPIDIS_BAD_NAME);
    ROW(acpidis_add(&set, "a", &address, "", SIZE_MAX) == ACPIDIS_TOO_LONG);
    ROW(acpidis_set_options(&set, 8) == ACPIDIS_BAD_OPTIONS);
    ROW(acpidis_set_options(&set, 7) == ACPIDIS_OK);
    ROW(acpidis_set_options(&set, 0) == ACPIDIS_OK);
    ROW(acpidis_set_counts(&set, "\\AAAA 1\nBBBB 2\n", 15, &line) == ACPIDIS_BAD_LINE && line == 2);
    ROW(acpidis_set_counts(&set, large, 16777217, &line) == ACPIDIS_TOO_LONG && line == 0);
    ROW(acpidis_set_counts(&set, "", SIZE_MAX, &line) == ACPIDIS_TOO_LONG && line == 0);
    ROW(acpidis_add(&set, "dump", NULL, dump, dump_length) == ACPIDIS_OK);
    ROW(acpidis_run(&set, false) == ACPIDIS_OK && acpidis_ended(&set, NULL, &text, NULL) == ACPIDIS_OK);
    ROW(acpidis_text(&set, text, part, 1) == ACPIDIS_OUT_OF_RANGE);
    ROW(acpidis_text(&set, text - 3, part, 4) == ACPIDIS_OUT_OF_RANGE);
    ROW(acpidis_text(&set, SIZE_MAX, part, 4) == ACPIDIS_OUT_OF_RANGE);
    ROW(acpidis_text(&set, 1, part, SIZE_MAX) == ACPIDIS_OUT_OF_RANGE);
    ROW(acpidis_text(&set, text - 4, part, 4) == ACPIDIS_OK && memcmp(part, wanted + text - 4, 4) == 0);
    ROW(acpidis_text(&set, text, part, 0) == ACPIDIS_OK);
    ROW(acpidis_list(&set, true) == ACPIDIS_OK && acpidis_listed(&set, &sizes) == ACPIDIS_OK);
    ROW(acpidis_rows(&set, sizes.rows, &got, 1) == ACPIDIS_OUT_OF_RANGE);
    ROW(acpidis_rows(&set, sizes.rows, &got, 0) == ACPIDIS_OK);
    ROW(acpidis_rows(&set, SIZE_MAX, &got, 1) == ACPIDIS_OUT_OF_RANGE);
    ROW(acpidis_rows(&set, 1, &got, SIZE_MAX / 48) == ACPIDIS_OUT_OF_RANGE);
    ROW(acpidis_rows(&set, 1, &got, SIZE_MAX) == ACPIDIS_OUT_OF_RANGE);
    ROW(acpidis_row_texts(&set, sizes.row_texts - 1, part, 2) == ACPIDIS_OUT_OF_RANGE);
    ROW(acpidis_method_texts(&set, sizes.method_texts, part, 1) == ACPIDIS_OUT_OF_RANGE);
    ROW(acpidis_body_texts(&set, sizes.body_texts, part, 1) == ACPIDIS_OUT_OF_RANGE);
    acpidis_close(&set);
    ROW(acpidis_open(&set) == ACPIDIS_OK);
    for (number = 0; number < 512; number++)
        if (acpidis_add(&set, "a", NULL, "", 0) != ACPIDIS_OK)
            break;
    ROW(number == 512 && acpidis_add(&set, "a", NULL, "", 0) == ACPIDIS_TOO_MANY_TABLES);
    acpidis_close(&set);
    ROW(is_refused_for(large, 16777217, "acpidis: table \"a\": TooLarge\n"));
    ROW(is_refused_for(large, 16777216, "acpidis: table \"a\": Short\n"));
    ROW(is_refused_for(NULL, 0, "acpidis: table \"a\": Short\n"));
    free(large);
}

static void *in_thread(void *good) {
    int same, round;
    *(int *)good = 1;
    for (round = 0; round < 50; round++)
        if (whole(&same) != ACPIDIS_OK || !same)
            *(int *)good = 0;
    return NULL;
}

static void try_threads(void) {
    pthread_t one, other;
    int good[2] = {0, 0};
    int begun = pthread_create(&one, NULL, in_thread, good) == 0 && pthread_create(&other, NULL, in_thread, good + 1) == 0;
    ROW(begun && pthread_join(one, NULL) == 0 && pthread_join(other, NULL) == 0 && good[0] && good[1]);
}

static void try_many(long sets) {
    int same = 1;
    long number;
    blocks = 0;
    within = 1;
    for (number = 0; number < sets && same; number++)
        if (whole(&same) != ACPIDIS_OK)
            same = 0;
    within = 0;
    ROW(same && blocks == 0);
}

/* Each growth is refused by itself, until none is left: a code with nothing lost, or the whole text, since there are
 * growths that a run does without. */
static void try_refusals(void) {
    acpidis_code code;
    int same, good = 1;
    long number, refused = 0;
    for (number = 0; number < 100000; number++) {
        blocks = calls = 0;
        refused_call = number;
        within = 1;
        code = whole(&same);
        within = 0;
        if (blocks != 0 || (code == ACPIDIS_OK) != same || (code != ACPIDIS_OK && code != ACPIDIS_NO_MEMORY)) {
            printf("growth %ld: code %d, %ld blocks left\n", number, code, blocks);
            good = 0;
        }
        if (calls <= number)
            break;
        refused += code == ACPIDIS_NO_MEMORY;
    }
    refused_call = -1;
    printf("%ld growths, of which %ld end a call\n", number, refused);
    ROW(good && refused > FEW && code == ACPIDIS_OK);
}

int main(int count, char **words) {
    if (count < 3)
        return 2;
    dump = read_file(words[1], &dump_length);
    wanted = read_file(words[2], &wanted_length);
    try_nulls();
    try_order();
    try_limits();
    try_threads();
    try_many(count > 3 ? 20 : 10000);
    try_refusals();
    ROW(strcmp(acpidis_words(ACPIDIS_NO_MEMORY), "NoMemory") == 0);
    ROW(strcmp(acpidis_words((acpidis_code)99), "unknown") == 0 && strcmp(acpidis_words(ACPIDIS_REFUSED), "Refused") == 0);
    ROW(strcmp(acpidis_kind_words(ACPIDIS_DEVICE), "Device") == 0 && strcmp(acpidis_kind_words(14), "unknown") == 0);
    ROW(strcmp(acpidis_fault_words(8), "UnknownName") == 0 && strcmp(acpidis_fault_words(UINT32_MAX), "unknown") == 0);
    free(dump);
    free(wanted);
    printf("%u passed, %u failed\n", passed, failed);
    return failed != 0;
}
