/* The listing of ACPI tables: acpidis(3).
 *
 * A set belongs to its caller, who makes it closed (ACPIDIS_CLOSED_SET), opens it, and closes it in the end.
 * acpidis_close lets go all memory that a set has. What a call is given it copies, or doesn't look at once it returns. A
 * call that answers another code than ACPIDIS_OK has changed nothing.
 *
 * Sets share nothing: each may be used by another thread. One set is used by one call at a time, and no call comes from a
 * signal handler. A set isn't copied while it is open. A thread that runs one wants 2 MB of stack; 0.73 MB was measured.
 */
#ifndef ACPIDIS_H
#define ACPIDIS_H

#include <stdbool.h>
#include <stddef.h>
#include <stdint.h>

#ifdef __cplusplus
extern "C" {
#endif

/* A set of tables. Its members are the library's own. */
typedef struct acpidis_set {
    void *at;
    bool full;
} acpidis_set;

/* What a set is before it is opened: acpidis_set set = ACPIDIS_CLOSED_SET; */
#define ACPIDIS_CLOSED_SET { NULL, false }

/* What a call answers. */
typedef enum acpidis_code {
    ACPIDIS_OK = 0,
    ACPIDIS_CLOSED = 1,          /* the set is closed, and the call wants an open one */
    ACPIDIS_OPEN = 2,            /* the set is open, and the call wants a closed one */
    ACPIDIS_NO_MEMORY = 3,       /* the C library gave none */
    ACPIDIS_BAD_NAME = 4,        /* the name of a dump isn't UTF-8 */
    ACPIDIS_TOO_MANY_TABLES = 5, /* there are 512 dumps already */
    ACPIDIS_TOO_LONG = 6,        /* a text of counts has more than 16,777,216 bytes */
    ACPIDIS_BAD_LINE = 7,        /* a line of such a text hasn't its form */
    ACPIDIS_NOT_RUN = 8,         /* the set has not run, or was not listed, since it was changed */
    ACPIDIS_OUT_OF_RANGE = 9,    /* there are not so many */
    ACPIDIS_BAD_OPTIONS = 10,    /* there is no such option */
    ACPIDIS_NULL = 11,           /* a pointer is null where something has to be */
    ACPIDIS_REFUSED = 12         /* the set has no listing; a run says why */
} acpidis_code;

/* What is taken that is refused else: sums of these. */
enum {
    ACPIDIS_ANY_SUM = 1,
    ACPIDIS_ANY_RUN = 2,
    ACPIDIS_UNKNOWN_ZERO = 4
};

/* The words of a code, which stay there. */
const char *acpidis_words(acpidis_code code);

/* Opens a closed set. */
acpidis_code acpidis_open(acpidis_set *set);

/* Closes a set, and lets go all that it has. Of a closed one, and of a null pointer, it does nothing. */
void acpidis_close(acpidis_set *set);

/* Adds a dump behind the others: its name, its address or a null pointer where that isn't known, and its bytes. The
 * program's text has the dumps in the order of their names, byte by byte. */
acpidis_code acpidis_add(acpidis_set *set, const char *name, const uint64_t *address, const void *bytes, size_t length);

/* Sets the argument counts that the user gives, by a text in the form of the file for --externals. `line`, if it isn't
 * null, gets the number of the line that is at fault, from 1, and else 0. */
acpidis_code acpidis_set_counts(acpidis_set *set, const void *text, size_t length, size_t *line);

/* Sets the options, a sum of ACPIDIS_ANY_SUM and so on. */
acpidis_code acpidis_set_options(acpidis_set *set, unsigned options);

/* Runs the set: its listing, or with `check` a line for each table, and its error lines. */
acpidis_code acpidis_run(acpidis_set *set, bool check);

/* What came of the last run: the exit status of the program, 0, 1 or 3, and how many bytes the text and the error lines
 * have. Each pointer may be null. */
acpidis_code acpidis_ended(acpidis_set *set, int *status, size_t *text, size_t *errors);

/* Copies `length` bytes of the text of the last run from the byte `from` on, and of its error lines. No byte 0 is put
 * behind them. */
acpidis_code acpidis_text(acpidis_set *set, size_t from, void *out, size_t length);
acpidis_code acpidis_errors(acpidis_set *set, size_t from, void *out, size_t length);

/* Lists the set, value by value: its tables, the rows of its namespace, its methods, and with `bodies` the bodies of
 * these, which take most of the time. A set without a listing isn't listed. */
acpidis_code acpidis_list(acpidis_set *set, bool bodies);

/* How many values were listed, and how many bytes their texts have. */
typedef struct acpidis_sizes {
    size_t tables, rows, row_texts, methods, method_texts, bodies, body_texts;
} acpidis_sizes;

acpidis_code acpidis_listed(acpidis_set *set, acpidis_sizes *sizes);

/* What a path is declared as. */
typedef enum acpidis_kind {
    ACPIDIS_SCOPE = 0,
    ACPIDIS_NAME = 1,
    ACPIDIS_METHOD = 2,
    ACPIDIS_ALIAS = 3,
    ACPIDIS_DEVICE = 4,
    ACPIDIS_PROCESSOR = 5,
    ACPIDIS_POWER_RESOURCE = 6,
    ACPIDIS_THERMAL_ZONE = 7,
    ACPIDIS_MUTEX = 8,
    ACPIDIS_EVENT = 9,
    ACPIDIS_REGION = 10,
    ACPIDIS_DATA_REGION = 11,
    ACPIDIS_FIELD = 12,
    ACPIDIS_BUFFER_FIELD = 13
} acpidis_kind;

/* The word of the listing for a kind, which stays there. */
const char *acpidis_kind_words(uint32_t kind);

/* A row of the namespace, in the order of the listing. */
typedef struct acpidis_row {
    size_t at;          /* where its path begins in the texts of rows, */
    size_t path;        /* how many bytes that has, */
    size_t target;      /* and how many behind it the path that an Alias leads to */
    size_t times;       /* how many declarations it has */
    uint32_t kind;      /* an acpidis_kind */
    uint32_t arguments; /* of a method */
    uint32_t maybe;     /* 1 where only some run of the code outside methods declares it */
} acpidis_row;

/* A method, in load order and that of the text. */
typedef struct acpidis_method {
    size_t at;       /* where its path begins in the texts of methods, */
    size_t path;     /* and how many bytes that has */
    size_t table;    /* its table, by the place in load order */
    uint32_t start;  /* where its body begins in the table's AML, which is behind 36 bytes of the table, */
    uint32_t length; /* and how many bytes that has */
    uint32_t flags;  /* bits 0 to 2: arguments; bit 3: serialized; bits 4 to 7: the sync level */
} acpidis_method;

/* The body of the method of the same number. */
typedef struct acpidis_body {
    size_t at;       /* where its lines begin in the texts of bodies, */
    size_t length;   /* and how many bytes they have: 0 where it is raw */
    uint32_t fault;  /* 0, or the number of the fault for which it is raw, */
    uint32_t offset; /* and the byte of the body that this is about */
} acpidis_body;

/* The word of a fault of a body, which stays there. */
const char *acpidis_fault_words(uint32_t fault);

/* Copy `count` values from the one of number `from` on; of tables the place at which each was added, from 0 on. */
acpidis_code acpidis_tables(acpidis_set *set, size_t from, size_t *out, size_t count);
acpidis_code acpidis_rows(acpidis_set *set, size_t from, acpidis_row *out, size_t count);
acpidis_code acpidis_methods(acpidis_set *set, size_t from, acpidis_method *out, size_t count);
acpidis_code acpidis_bodies(acpidis_set *set, size_t from, acpidis_body *out, size_t count);

/* Copy `length` bytes of the texts of rows, of methods or of bodies from the byte `from` on. */
acpidis_code acpidis_row_texts(acpidis_set *set, size_t from, void *out, size_t length);
acpidis_code acpidis_method_texts(acpidis_set *set, size_t from, void *out, size_t length);
acpidis_code acpidis_body_texts(acpidis_set *set, size_t from, void *out, size_t length);

/* The version, as `acpidis --version` has it. */
const char *acpidis_version(void);

#ifdef __cplusplus
}
#endif

#endif
