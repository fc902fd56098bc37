// Reads a text from standard input and writes the listing of its packages, or the line of their refusal, to
// standard output; of a refusal, its fields to standard error. The status is the library's answer, or 4
// where input cannot be read or an allocation fails.
#include "wit_ffi.h"
#include <stdio.h>
#include <stdlib.h>

// All of standard input, or NULL.
static uint8_t *read_all(size_t *len) {
    size_t capacity = 4096;
    uint8_t *text = malloc(capacity);
    *len = 0;
    while (text) {
        size_t got = fread(text + *len, 1, capacity - *len, stdin);
        *len += got;
        if (got == 0) break;
        if (*len < capacity) continue;
        uint8_t *more = realloc(text, capacity *= 2);
        if (!more) free(text);
        text = more;
    }
    return text;
}

// Writes the fields of the refusal of a text. The buffers are long enough for most paths and messages;
// what is longer is cut.
static void write_refusal(const uint8_t *text, size_t text_len) {
    uint8_t path[256] = {0}, message[256] = {0};
    struct wit_ffi_refusal refusal = {0};
    if (wit_ffi_check(text, text_len, path, sizeof path, message, sizeof message, &refusal) != WIT_FFI_REFUSED) return;
    size_t path_len = refusal.path_len < sizeof path ? refusal.path_len : sizeof path;
    size_t message_len = refusal.message_len < sizeof message ? refusal.message_len : sizeof message;
    fprintf(stderr, "rule %d", refusal.rule);
    if (refusal.placed) fprintf(stderr, " at %.*s %u..%u", (int)path_len, path, refusal.start, refusal.end);
    fprintf(stderr, ": %.*s\n", (int)message_len, message);
}

int main(void) {
    size_t text_len, len = 0;
    uint8_t *text = read_all(&text_len);
    if (!text) return 4;
    // A guess of how long the result is; where it is longer, `len` says how long.
    size_t capacity = 4 * text_len + 256;
    uint8_t *buffer = calloc(capacity, 1);
    if (!buffer) return 4;
    uint8_t status = wit_ffi_answer(text, text_len, buffer, capacity, &len);
    if (len > capacity) {
        free(buffer);
        capacity = len;
        buffer = calloc(capacity, 1);
        if (!buffer) return 4;
        status = wit_ffi_answer(text, text_len, buffer, capacity, &len);
    }
    fwrite(buffer, 1, len, stdout);
    if (status == WIT_FFI_REFUSED) write_refusal(text, text_len);
    free(buffer);
    free(text);
    return status;
}
