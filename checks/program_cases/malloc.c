/*
 * The call with the number FAILING, counted from 0, that asks for memory fails and says so on descriptor 9: a call of malloc,
 * calloc, realloc, aligned_alloc, memalign or posix_memalign. A realloc that fails leaves the old memory.
 */
#include <errno.h>
#include <stdlib.h>
#include <unistd.h>
extern void *__libc_malloc(size_t size);
extern void *__libc_calloc(size_t count, size_t size);
extern void *__libc_realloc(void *old, size_t size);
extern void *__libc_memalign(size_t align, size_t size);
static long left = -1;
__attribute__((constructor)) static void begin(void) {
    const char *failing = getenv("FAILING");
    if (failing) left = atol(failing);
}
static int fails(void) {
    if (left < 0 || __atomic_fetch_sub(&left, 1, __ATOMIC_SEQ_CST) != 0) return 0;
    if (write(9, "x", 1) < 0) abort();
    errno = ENOMEM;
    return 1;
}
void *malloc(size_t size) { return fails() ? NULL : __libc_malloc(size); }
void *calloc(size_t count, size_t size) { return fails() ? NULL : __libc_calloc(count, size); }
void *realloc(void *old, size_t size) { return fails() ? NULL : __libc_realloc(old, size); }
void *memalign(size_t align, size_t size) { return fails() ? NULL : __libc_memalign(align, size); }
void *aligned_alloc(size_t align, size_t size) { return fails() ? NULL : __libc_memalign(align, size); }
int posix_memalign(void **at, size_t align, size_t size) {
    if (fails()) return ENOMEM;
    *at = __libc_memalign(align, size);
    return *at ? 0 : ENOMEM;
}
