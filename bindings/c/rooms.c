// rooms FILE: each call on the text of a file, with every capacity from none to the whole, and with each
// allocation refused in turn; checks that nothing is written after what is to be written, and that all
// memory is freed. Linked with -Wl,--wrap=malloc,--wrap=realloc,--wrap=free. The status is 0 where all is
// well, and else tells what is not.
#include "wit_ffi.h"
#include <stdio.h>
#include <stdlib.h>
#include <string.h>

static long asked, refused, live;
void *__real_malloc(size_t n);
void *__real_realloc(void *p, size_t n);
void __real_free(void *p);
void *__wrap_malloc(size_t n) {
    if (++asked == refused) return NULL;
    void *p = __real_malloc(n);
    live += p != NULL;
    return p;
}
void *__wrap_realloc(void *p, size_t n) {
    if (++asked == refused) return NULL;
    void *q = __real_realloc(p, n);
    live += q != NULL && p == NULL;
    return q;
}
void __wrap_free(void *p) {
    live -= p != NULL;
    __real_free(p);
}

enum { ROOM = 1 << 17, MARK = 0xee };
static uint8_t text[ROOM], whole[ROOM], buffer[ROOM], whole_path[ROOM], path[ROOM], whole_message[ROOM], message[ROOM];
static size_t text_len, whole_len;
static struct wit_ffi_refusal plain;

// A call that writes a text of a text.
typedef uint8_t call(const uint8_t *, size_t, uint8_t *, size_t, size_t *);

// The text as the only source, at a path of its own.
static uint8_t package_of_one(const uint8_t *source, size_t source_len, uint8_t *out, size_t capacity, size_t *len) {
    static uint8_t bytes[ROOM + 5] = "a.wit";
    const size_t lens[] = {5, source_len};
    memcpy(bytes + 5, source, source_len);
    return wit_ffi_package_of(bytes, 5 + source_len, lens, 2, out, capacity, len);
}

// The calls that write a text, each with how a refusal for want of memory begins.
static const struct written {
    call *call;
    const char *name, *memory;
} calls[] = {
    {wit_ffi_answer, "answer", "error E45 "},
    {wit_ffi_package, "package", "{\"error\":{\"rule\":45,"},
    {package_of_one, "package_of", "{\"error\":{\"rule\":45,"},
};

// Whether a buffer has the beginning of the whole, and is after that as it was.
static bool is_written(const uint8_t *out, size_t capacity, const uint8_t *all, size_t all_len) {
    size_t cut = capacity < all_len ? capacity : all_len;
    if (memcmp(out, all, cut)) return false;
    for (size_t at = cut; at < ROOM; at++)
        if (out[at] != MARK) return false;
    return true;
}

static bool is_same(const struct wit_ffi_refusal *a, const struct wit_ffi_refusal *b) {
    return a->rule == b->rule && a->placed == b->placed && a->start == b->start && a->end == b->end && a->path_len == b->path_len &&
           a->message_len == b->message_len;
}

// Whether a call of which an allocation was refused answers that, or the refusal 45, or as if all were well.
static bool is_known(uint8_t status, uint8_t well, bool is_45) { return status == well || status == WIT_FFI_NO_MEMORY || (status == WIT_FFI_REFUSED && is_45); }

// A call with every capacity from none to the whole and some more.
static int try_capacities(call *call, uint8_t well) {
    for (size_t capacity = 0; capacity <= whole_len + 9; capacity++) {
        size_t len = 0;
        memset(buffer, MARK, ROOM);
        if (call(text, text_len, buffer, capacity, &len) != well || len != whole_len) return 1;
        if (!is_written(buffer, capacity, whole, whole_len)) return 2;
    }
    return 0;
}

// Each allocation of a call refused in turn.
static int refuse_each(const struct written *of, uint8_t well, long allocations) {
    for (refused = 1; refused <= allocations; refused++) {
        size_t len = 0;
        asked = 0;
        memset(buffer, MARK, ROOM);
        uint8_t status = of->call(text, text_len, buffer, ROOM, &len);
        if (live != 0) return 3;
        if (!is_known(status, well, len > strlen(of->memory) && !memcmp(buffer, of->memory, strlen(of->memory)))) return 4;
        if (status == WIT_FFI_NO_MEMORY && len != 0) return 5;
        for (size_t at = len; at < ROOM; at++)
            if (buffer[at] != MARK) return 6;
    }
    refused = 0;
    return 0;
}

// A call that writes a text: as it is, with every capacity, and with each allocation refused.
static int try_written(const struct written *of, uint8_t *status) {
    asked = live = 0;
    *status = of->call(text, text_len, whole, ROOM, &whole_len);
    long allocations = asked;
    if (live != 0 || whole_len > ROOM - 9) return 7;
    printf("  %s: status %d, %zu bytes, %ld allocations\n", of->name, *status, whole_len, allocations);
    int wrong = try_capacities(of->call, *status);
    return wrong ? wrong : refuse_each(of, *status, allocations);
}

// The fields of a refusal, with every capacity for the path and the message.
static int try_fields(uint8_t well) {
    size_t most = plain.path_len > plain.message_len ? plain.path_len : plain.message_len;
    for (size_t capacity = 0; capacity <= most + 9; capacity++) {
        struct wit_ffi_refusal refusal = {9, true, 9, 9, 9, 9};
        memset(path, MARK, ROOM);
        memset(message, MARK, ROOM);
        if (wit_ffi_check(text, text_len, path, capacity, message, capacity, &refusal) != well || !is_same(&refusal, &plain)) return 8;
        if (!is_written(path, capacity, whole_path, plain.path_len)) return 9;
        if (!is_written(message, capacity, whole_message, plain.message_len)) return 9;
    }
    return 0;
}

// The fields of a refusal, with each allocation refused in turn.
static int refuse_fields(uint8_t well, long allocations) {
    for (refused = 1; refused <= allocations; refused++) {
        struct wit_ffi_refusal refusal = {9, true, 9, 9, 9, 9}, none = {0};
        asked = 0;
        memset(path, MARK, ROOM);
        memset(message, MARK, ROOM);
        uint8_t status = wit_ffi_check(text, text_len, path, ROOM, message, ROOM, &refusal);
        if (live != 0) return 10;
        if (!is_known(status, well, refusal.rule == 45 && !refusal.placed)) return 11;
        if (status != WIT_FFI_REFUSED && !is_same(&refusal, &none)) return 12;
        for (size_t at = refusal.path_len; at < ROOM; at++)
            if (path[at] != MARK) return 13;
        for (size_t at = refusal.message_len; at < ROOM; at++)
            if (message[at] != MARK) return 13;
    }
    refused = 0;
    return 0;
}

// Lengths that do not fit the bytes: nothing is written.
static int try_lengths(void) {
    const uint8_t bytes[] = "a.witpackage a:b; // \xc3\xa9";
    const size_t all = sizeof bytes - 1;
    const size_t lens[][4] = {{5, all - 6, 0, 0}, {5, all - 4, 0, 0}, {5, all - 5, 1, 0}, {all - 1, 1, 0, 0}, {5, SIZE_MAX, 5, all - 9}, {5, all - 5, 0, 0}};
    const size_t counts[] = {2, 2, 4, 2, 4, 3};
    for (size_t wrong = 0; wrong < sizeof counts / sizeof *counts; wrong++) {
        size_t len = 9;
        memset(buffer, MARK, ROOM);
        if (wit_ffi_package_of(bytes, all, lens[wrong], counts[wrong], buffer, ROOM, &len) != WIT_FFI_NO_TEXT || len != 0) return 14;
        if (!is_written(buffer, ROOM, whole, 0)) return 15;
    }
    size_t len = 0;
    if (wit_ffi_package_of(bytes, all, lens[5], 2, buffer, ROOM, &len) != WIT_FFI_MADE) return 16;
    return wit_ffi_package_of(bytes, 0, lens[5], 0, buffer, ROOM, &len) == WIT_FFI_REFUSED ? 0 : 17;
}

int main(int argc, char **argv) {
    FILE *file = argc == 2 ? fopen(argv[1], "rb") : NULL;
    if (!file) return 20;
    text_len = fread(text, 1, ROOM, file);
    fclose(file);
    printf("%s\n", argv[1]);
    uint8_t status = 0, same = 0;
    int wrong = try_written(&calls[0], &status);
    for (size_t at = 1; !wrong && at < sizeof calls / sizeof *calls; at++) wrong = try_written(&calls[at], &same);
    if (wrong) return wrong;
    asked = live = 0;
    uint8_t checked = wit_ffi_check(text, text_len, whole_path, ROOM, whole_message, ROOM, &plain);
    long allocations = asked;
    if (live != 0 || checked != status) return 21;
    wrong = try_fields(checked);
    if (!wrong) wrong = refuse_fields(checked, allocations);
    return wrong ? wrong : try_lengths();
}
