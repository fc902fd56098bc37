/* The resolver of WIT packages, as a static library, bindings/out/libwit_ffi.a, and as a shared one,
   bindings/out/libwit_ffi.so.

   No pointer may be null, also where its length is 0: the library is written in a language whose slices
   are never null, and it does not look. Without a source or a buffer, pass the address of any object.

   The sources of a call make one package, in which others may be nested. A text is one source, or
   several, each after a line `=== PATH`; what stands before the first such line is the source
   `stdin.wit`. A source that may hold such a line goes to wit_ffi_package_of, which takes sources apart.

   What a call allocates it frees before it returns; it keeps nothing, and calls share nothing, so that
   threads may call side by side. The library calls malloc, realloc and free, memcpy, memmove and memset,
   and no other function of the system.

   What is written goes into the caller's buffers. A call writes the beginning of the result, up to the
   buffer's capacity, leaves the rest of the buffer as it was, and sets `len` to the length of the whole
   result, also where that is more than the capacity: then call again with a buffer of that length.

   The caller ensures, in every call, that
   - each pointer leads to as many elements as the length after it says, and to a size_t or a struct
     where no length follows it;
   - nothing changes the input (text, bytes, lens) during the call, and no other thread reads or writes
     the output (buffer, len, path, message, refusal);
   - the output is initialized, with zeros for example, and overlaps neither the input nor other output;
   - the call is not made from a signal handler, nor in a forked child of a process with threads. */
#ifndef WIT_FFI_H
#define WIT_FFI_H
#include <stdbool.h>
#include <stddef.h>
#include <stdint.h>

#ifdef __cplusplus
extern "C" {
#endif

/* What a call answers. */
enum wit_ffi_status {
    WIT_FFI_MADE = 0,      /* the sources make packages */
    WIT_FFI_REFUSED = 1,   /* the sources are refused */
    WIT_FFI_NO_TEXT = 2,   /* the input is not UTF-8 */
    WIT_FFI_NO_MEMORY = 3, /* an allocation failed, but not while reading or resolving: that is the refusal 45 */
};

/* Writes the packages that the sources of a text make as JSON (WIT_FFI_MADE), or their refusal as JSON,
   {"error":{..}} (WIT_FFI_REFUSED); else nothing. docs/JSON.md says what the JSON is: one line in UTF-8,
   without a line end and without a zero byte. */
uint8_t wit_ffi_package(const uint8_t *text, size_t text_len, uint8_t *buffer, size_t capacity, size_t *len);

/* Writes the same of sources that are given apart: `bytes` is the path of the first source, its text, the
   path of the second one, its text, and so on, one directly after the other, and `lens` has the length
   of each of these. `lens_len` is the number of lengths, twice the number of sources. No line of a
   source begins another one. The answer is WIT_FFI_NO_TEXT also where that number is odd, where the
   lengths together are not `bytes_len`, and where a path or a text alone is not UTF-8. */
uint8_t wit_ffi_package_of(const uint8_t *bytes, size_t bytes_len, const size_t *lens, size_t lens_len, uint8_t *buffer,
                           size_t capacity, size_t *len);

/* Writes the listing of the packages that the sources of a text make (WIT_FFI_MADE), or the line of
   their refusal (WIT_FFI_REFUSED): the bytes that the program `wit` prints of this text
   (docs/LISTING.md). Else nothing is written. */
uint8_t wit_ffi_answer(const uint8_t *text, size_t text_len, uint8_t *buffer, size_t capacity, size_t *len);

/* A refusal in plain fields. */
struct wit_ffi_refusal {
    uint8_t rule;       /* the number of the rule (docs/REFUSALS.md) */
    bool placed;        /* whether it has a place in a source */
    uint32_t start;     /* if so, the range of that place in the text of that source, in bytes; else 0 */
    uint32_t end;
    size_t path_len;    /* the length of the path of that source, or 0 */
    size_t message_len; /* the length of the message */
};

/* Writes the refusal of the sources of a text in plain fields (WIT_FFI_REFUSED): the path of the source to
   `path` and the message to `message`, each up to its capacity, and the rest to `refusal`, with the
   lengths of the whole path and of the whole message. For every other answer nothing is written to
   `path` and `message`, and each field of `refusal` is 0. The range is of the source's own text: of
   several sources, the lines `=== PATH` and the other sources are not counted. */
uint8_t wit_ffi_check(const uint8_t *text, size_t text_len, uint8_t *path, size_t path_capacity, uint8_t *message,
                      size_t message_capacity, struct wit_ffi_refusal *refusal);

/* The version of the library: major * 65536 + minor * 256 + patch. */
uint32_t wit_ffi_version(void);

#ifdef __cplusplus
}
#endif
#endif
