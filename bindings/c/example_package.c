// Reads the WIT files that are named, and prints the name of the package that they make, with the counts
// of its worlds, interfaces and types, as the library's JSON has them; of a refusal, its rule and message
// on standard error. The status is the library's answer, or 4 where a file or memory is missing.
//
// What this looks for is found by its place in the JSON. A program that reads more takes a reader of JSON.
#include "wit_ffi.h"
#include <stdio.h>
#include <stdlib.h>
#include <string.h>

// Sources as wit_ffi_package_of takes them.
struct sources {
    uint8_t *bytes;
    size_t bytes_len;
    size_t lens[64], lens_len;
};

// Adds bytes after those of the sources, as one part. Whether there is memory for it.
static bool add_part(struct sources *sources, const void *part, size_t len) {
    uint8_t *bytes = realloc(sources->bytes, sources->bytes_len + len + 1);
    if (!bytes || sources->lens_len == 64) return false;
    memcpy(bytes + sources->bytes_len, part, len);
    sources->bytes = bytes;
    sources->bytes_len += len;
    sources->lens[sources->lens_len++] = len;
    return true;
}

// Adds the file at a path as a source. Whether it can be read.
static bool add_file(struct sources *sources, const char *path) {
    static char text[1 << 20];
    FILE *file = fopen(path, "rb");
    if (!file) return false;
    size_t len = fread(text, 1, sizeof text, file);
    bool whole = feof(file) && !ferror(file);
    fclose(file);
    return whole && add_part(sources, path, strlen(path)) && add_part(sources, text, len);
}

// The JSON of sources, with a zero byte after it; NULL without memory.
static char *package_json(const struct sources *sources, uint8_t *status) {
    size_t capacity = 16 * sources->bytes_len + 1024, len = 0;
    for (;;) {
        char *json = calloc(capacity + 1, 1);
        if (!json) return NULL;
        *status = wit_ffi_package_of(sources->bytes, sources->bytes_len, sources->lens, sources->lens_len, (uint8_t *)json, capacity, &len);
        if (len <= capacity) return json;
        free(json);
        capacity = len;
    }
}

// The end of the value at a place: of a string after its quote, of an array or object after its bracket.
static const char *value_end(const char *at) {
    int depth = 0;
    bool quoted = false;
    for (; *at; at++) {
        if (quoted && *at == '\\') at++;
        else if (*at == '"') quoted = !quoted;
        else if (!quoted && (*at == '[' || *at == '{')) depth++;
        else if (!quoted && (*at == ']' || *at == '}') && depth-- == 0) return at;
        else if (!quoted && *at == ',' && depth == 0) return at;
    }
    return at;
}

// The value of the member of this name, which is written with its quotes, in the object at a place, or NULL.
static const char *member(const char *object, const char *name) {
    const char *at = object;
    while (*at == '{' || *at == ',') {
        at++;
        bool same = !strncmp(at, name, strlen(name)) && at[strlen(name)] == ':';
        at = strchr(at + 1, '"') + 2;
        if (same) return at;
        at = value_end(at);
    }
    return NULL;
}

// How many values an array has.
static size_t count(const char *array) {
    size_t found = 0;
    for (const char *at = array; (*at == '[' || *at == ',') && at[1] != ']'; found++) at = value_end(at + 1);
    return found;
}

// Prints a string of the JSON as it stands there.
static void print_value(FILE *out, const char *value) { fprintf(out, "%.*s", (int)(value_end(value) - value), value); }

int main(int argc, char **argv) {
    struct sources sources = {0};
    uint8_t status = 0;
    for (int file = 1; file < argc; file++)
        if (!add_file(&sources, argv[file])) return 4;
    if (!sources.bytes && !add_part(&sources, "", 0)) return 4;
    if (argc == 1) sources.lens_len = 0;
    char *json = package_json(&sources, &status);
    if (!json) return 4;
    if (status == WIT_FFI_MADE) {
        const char *package = member(json, "\"packages\"") + 1;
        print_value(stdout, member(package, "\"name\""));
        printf(" %zu %zu %zu\n", count(member(package, "\"worlds\"")), count(member(package, "\"interfaces\"")), count(member(package, "\"types\"")));
    } else if (status == WIT_FFI_REFUSED) {
        const char *error = member(json, "\"error\"");
        print_value(stderr, member(error, "\"rule\""));
        fputs(": ", stderr);
        print_value(stderr, member(error, "\"message\""));
        fputs("\n", stderr);
    }
    free(json);
    free(sources.bytes);
    return status;
}
