// The allocator of `bench/faults`. Two sizes, which no memory has, are words to it: 2^60 + N has it refuse the Nth of the next
// requests, and 2^61 ends that, and is granted where one was refused. Linked with -Wl,--wrap=malloc,--wrap=realloc.
#include <stddef.h>

#define ARM ((size_t)1 << 60)
#define ASK ((size_t)1 << 61)

static size_t left;
static int met;

void *__real_malloc(size_t n);
void *__real_realloc(void *p, size_t n);

static int is_refused(void) {
    if (left == 0 || --left != 0) return 0;
    met = 1;
    return 1;
}

void *__wrap_malloc(size_t n) {
    if (n >= ASK) {
        left = 0;
        return met ? __real_malloc(1) : NULL;
    }
    if (n >= ARM) {
        left = n - ARM;
        met = 0;
        return NULL;
    }
    return is_refused() ? NULL : __real_malloc(n);
}

void *__wrap_realloc(void *p, size_t n) {
    return is_refused() ? NULL : __real_realloc(p, n);
}
