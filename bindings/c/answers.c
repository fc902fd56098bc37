// What each call that takes a text answers to a few texts, in buffers of `.` as long as the expected output. The status is 0 where
// all is as expected, and else 1; what is not is named on standard error.
#include "wit_ffi.h"
#include <stdio.h>
#include <string.h>

enum { ROOM = 512 };

// A call that writes a text of a text.
typedef uint8_t call(const uint8_t *, size_t, uint8_t *, size_t, size_t *);

// A text with its answer, the length of the whole output, and what a buffer as long as this has after the call.
struct written {
    const char *name;
    call *call;
    const char *text;
    uint8_t status;
    size_t len;
    const char *output;
};

static const char legal[] = "package foo:foo;";
static const char refused[] = "=== a.wit\npackage foo:foo;\n=== b.wit\ninterface i { type t = u; }\n";

static const char json[] = "{\"sources\":[{\"path\":\"stdin.wit\",\"start\":0,\"end\":16}],\"packages\":[{\"name\":\"foo:foo\",\"worlds\":[],"
                           "\"interfaces\":[],\"types\":[],\"foreign_deps\":{},\"package_name_span\":[8,15],\"unknown_type_spans\":[],"
                           "\"foreign_dep_spans\":[],\"required_resource_types\":[]}]}..";
static const char error[] = "{\"error\":{\"rule\":15,\"path\":\"b.wit\",\"start\":23,\"end\":24,\"message\":\"type `u` does not exist\"}}.";

static const struct written outputs[] = {
    {"a listing", wit_ffi_answer, legal, WIT_FFI_MADE, 56, "package foo:foo\ntypes 0\ninterfaces 0\nworlds 0\nforeign 0\n...."},
    {"the first line of a listing", wit_ffi_answer, legal, WIT_FFI_MADE, 56, "package foo:foo\n"},
    {"no room for a listing", wit_ffi_answer, legal, WIT_FFI_MADE, 56, ""},
    {"the beginning of a line", wit_ffi_answer, "", WIT_FFI_REFUSED, 78, "error E4 "},
    {"no listing of no text", wit_ffi_answer, "package foo:\xff;", WIT_FFI_NO_TEXT, 0, "...."},
    {"a package", wit_ffi_package, legal, WIT_FFI_MADE, 245, json},
    {"the beginning of a package", wit_ffi_package, legal, WIT_FFI_MADE, 245, "{\"sources\""},
    {"a refusal in JSON", wit_ffi_package, refused, WIT_FFI_REFUSED, 92, error},
    {"no package of no text", wit_ffi_package, "\xff", WIT_FFI_NO_TEXT, 0, "."},
};

// A text with its answer, the fields of its refusal, and what buffers as long as these have after the call.
struct checked {
    const char *name;
    const char *text;
    uint8_t status;
    struct wit_ffi_refusal refusal;
    const char *path, *message;
};

static const struct checked checks[] = {
    {"a refusal", refused, WIT_FFI_REFUSED, {15, true, 23, 24, 5, 23}, "b.wit.", "type `u` does not exist.."},
    {"the beginning of a refusal", refused, WIT_FFI_REFUSED, {15, true, 23, 24, 5, 23}, "b.", "type "},
    {"a refusal without a place", "", WIT_FFI_REFUSED, {4, false, 0, 0, 0, 62}, ".", "no `package` "},
    {"no refusal", legal, WIT_FFI_MADE, {0}, ".", "."},
    {"no refusal of no text", "\xff", WIT_FFI_NO_TEXT, {0}, ".", "."},
};

// Whether a buffer has this text, and nothing after it.
static bool has(const uint8_t *buffer, const char *text) {
    size_t len = strlen(text);
    return !memcmp(buffer, text, len) && buffer[len] == '.' && buffer[ROOM - 1] == '.';
}

static bool is_written(const struct written *it) {
    uint8_t buffer[ROOM];
    size_t len = 9;
    memset(buffer, '.', ROOM);
    uint8_t status = it->call((const uint8_t *)it->text, strlen(it->text), buffer, strlen(it->output), &len);
    return status == it->status && len == it->len && has(buffer, it->output);
}

static bool are_fields(const struct wit_ffi_refusal *a, const struct wit_ffi_refusal *b) {
    bool placed = a->rule == b->rule && a->placed == b->placed && a->start == b->start && a->end == b->end;
    return placed && a->path_len == b->path_len && a->message_len == b->message_len;
}

static bool is_checked(const struct checked *it) {
    uint8_t path[ROOM], message[ROOM];
    struct wit_ffi_refusal refusal = {9, true, 9, 9, 9, 9};
    memset(path, '.', ROOM);
    memset(message, '.', ROOM);
    uint8_t status =
        wit_ffi_check((const uint8_t *)it->text, strlen(it->text), path, strlen(it->path), message, strlen(it->message), &refusal);
    return status == it->status && are_fields(&refusal, &it->refusal) && has(path, it->path) && has(message, it->message);
}

// Names what does not hold.
static int check(const char *name, bool holds) {
    if (!holds) fprintf(stderr, "not as expected: %s\n", name);
    return !holds;
}

int main(void) {
    int wrong = 0;
    for (size_t at = 0; at < sizeof outputs / sizeof *outputs; at++) wrong |= check(outputs[at].name, is_written(&outputs[at]));
    for (size_t at = 0; at < sizeof checks / sizeof *checks; at++) wrong |= check(checks[at].name, is_checked(&checks[at]));
    return wrong | check("the version", wit_ffi_version() == 256);
}
