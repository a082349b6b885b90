/* Prints the listing of a folder's dumps, as `acpidis FOLDER` does. Of the program's options it takes --any-sum,
 * --any-run, --unknown-zero and --check. A `tables.map` is left out: the dumps have no addresses. */
#include <acpidis.h>

#include <dirent.h>
#include <stdio.h>
#include <stdlib.h>
#include <string.h>

/* The bytes of a file, which the caller frees, or a null pointer. */
static unsigned char *read_file(const char *folder, const char *name, size_t *length) {
    char path[4096];
    unsigned char *bytes = NULL;
    FILE *file;
    long end;

    snprintf(path, sizeof path, "%s/%s", folder, name);
    file = fopen(path, "rb");
    if (file == NULL)
        return NULL;
    if (fseek(file, 0, SEEK_END) == 0 && (end = ftell(file)) >= 0 && fseek(file, 0, SEEK_SET) == 0) {
        *length = (size_t)end;
        bytes = malloc(*length + 1);
        if (bytes != NULL && fread(bytes, 1, *length, file) != *length) {
            free(bytes);
            bytes = NULL;
        }
    }
    fclose(file);
    return bytes;
}

static int by_bytes(const void *one, const void *other) {
    return strcmp(*(char *const *)one, *(char *const *)other);
}

/* Adds a file of a folder. */
static acpidis_code add_file(acpidis_set *set, const char *folder, const char *name) {
    size_t length = 0;
    unsigned char *bytes = read_file(folder, name, &length);
    acpidis_code code = bytes == NULL ? ACPIDIS_NULL : acpidis_add(set, name, NULL, bytes, length);
    free(bytes);
    return code;
}

/* Adds all files of a folder but its map, in the order of their names. */
static acpidis_code add_folder(acpidis_set *set, const char *folder) {
    char *names[600];
    size_t count = 0, number;
    acpidis_code code = ACPIDIS_OK;
    struct dirent *entry;
    DIR *files = opendir(folder);

    if (files == NULL)
        return ACPIDIS_NULL;
    while ((entry = readdir(files)) != NULL && count < sizeof names / sizeof *names)
        if (entry->d_name[0] != '.' && strcmp(entry->d_name, "tables.map") != 0) {
            names[count] = malloc(strlen(entry->d_name) + 1);
            if (names[count] != NULL)
                strcpy(names[count++], entry->d_name);
        }
    closedir(files);
    qsort(names, count, sizeof *names, by_bytes);
    for (number = 0; number < count; number++) {
        if (code == ACPIDIS_OK)
            code = add_file(set, folder, names[number]);
        free(names[number]);
    }
    return code;
}

/* Prints the text of the last run, or its error lines. */
static acpidis_code print(acpidis_set *set, size_t length, FILE *out,
                          acpidis_code copy(acpidis_set *, size_t, void *, size_t)) {
    static char part[65536];
    size_t from, some;

    for (from = 0; from < length; from += some) {
        some = length - from < sizeof part ? length - from : sizeof part;
        acpidis_code code = copy(set, from, part, some);
        if (code != ACPIDIS_OK)
            return code;
        fwrite(part, 1, some, out);
    }
    return ACPIDIS_OK;
}

/* Opens, fills and runs a set, and prints what came of it. */
static acpidis_code list(acpidis_set *set, const char *folder, unsigned options, bool check, int *status) {
    size_t text, errors;
    acpidis_code code = acpidis_open(set);

    if (code == ACPIDIS_OK)
        code = acpidis_set_options(set, options);
    if (code == ACPIDIS_OK)
        code = add_folder(set, folder);
    if (code == ACPIDIS_OK)
        code = acpidis_run(set, check);
    if (code == ACPIDIS_OK)
        code = acpidis_ended(set, status, &text, &errors);
    if (code == ACPIDIS_OK)
        code = print(set, text, stdout, acpidis_text);
    if (code == ACPIDIS_OK)
        code = print(set, errors, stderr, acpidis_errors);
    return code;
}

int main(int count, char **words) {
    acpidis_set set = ACPIDIS_CLOSED_SET;
    const char *folder = NULL;
    unsigned options = 0;
    bool check = false;
    int status = 2, number;
    acpidis_code code;

    for (number = 1; number < count; number++)
        if (strcmp(words[number], "--any-sum") == 0)
            options |= ACPIDIS_ANY_SUM;
        else if (strcmp(words[number], "--any-run") == 0)
            options |= ACPIDIS_ANY_RUN;
        else if (strcmp(words[number], "--unknown-zero") == 0)
            options |= ACPIDIS_UNKNOWN_ZERO;
        else if (strcmp(words[number], "--check") == 0)
            check = true;
        else
            folder = words[number];
    if (folder == NULL)
        return 2;
    code = list(&set, folder, options, check, &status);
    acpidis_close(&set);
    if (code != ACPIDIS_OK) {
        fprintf(stderr, "acpidis: %s\n", acpidis_words(code));
        return 1;
    }
    return status;
}
