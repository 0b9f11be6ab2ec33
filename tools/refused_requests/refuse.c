// Laid in front of a built program: the request for memory with the number REFUSED is answered by
// nothing, all others by the C library. Each call of it that gives memory is a request, from
// whichever thread. Where COUNTED names a file, the number of requests that the program made is
// written there when it ends. If it holds memory then, it says so, and has failed.
#define _GNU_SOURCE
#include <errno.h>
#include <fcntl.h>
#include <stdatomic.h>
#include <stdint.h>
#include <stdio.h>
#include <stdlib.h>
#include <sys/syscall.h>
#include <unistd.h>

// The C library's own calls under the names that nothing is laid in front of.
void *__libc_malloc(size_t size);
void *__libc_calloc(size_t count, size_t size);
void *__libc_realloc(void *old, size_t size);
void *__libc_memalign(size_t alignment, size_t size);
void __libc_free(void *place);

static atomic_long made = 0;
// How many pieces of memory were given, and not given back.
static atomic_long held = 0;

static int is_refused(void) {
    static atomic_long number = -1;
    if (number < 0) {
        const char *text = getenv("REFUSED");
        number = text ? atol(text) : 0;
    }
    int refused = atomic_fetch_add(&made, 1) + 1 == number;
    if (refused) errno = ENOMEM;
    return refused;
}

static void *given(void *place) {
    if (place) atomic_fetch_add(&held, 1);
    return place;
}

void *malloc(size_t size) { return is_refused() ? NULL : given(__libc_malloc(size)); }

void *calloc(size_t count, size_t size) {
    return is_refused() ? NULL : given(__libc_calloc(count, size));
}

void free(void *place) {
    if (place) atomic_fetch_sub(&held, 1);
    __libc_free(place);
}

void *realloc(void *old, size_t size) {
    if (!old) return malloc(size);
    if (is_refused()) return NULL;
    void *place = __libc_realloc(old, size);
    if (!place && size == 0) atomic_fetch_sub(&held, 1);
    return place;
}

void *reallocarray(void *old, size_t count, size_t size) {
    size_t whole;
    if (__builtin_mul_overflow(count, size, &whole)) whole = SIZE_MAX;
    return realloc(old, whole);
}

void *memalign(size_t alignment, size_t size) {
    return is_refused() ? NULL : given(__libc_memalign(alignment, size));
}

void *aligned_alloc(size_t alignment, size_t size) { return memalign(alignment, size); }

int posix_memalign(void **place, size_t alignment, size_t size) {
    if (alignment % sizeof(void *) != 0 || (alignment & (alignment - 1)) != 0) return EINVAL;
    void *found = memalign(alignment, size);
    if (found) *place = found;
    return found ? 0 : ENOMEM;
}

void *valloc(size_t size) { return memalign((size_t)getpagesize(), size); }

void *pvalloc(size_t size) {
    size_t page = (size_t)getpagesize();
    return valloc((size + page - 1) / page * page);
}

__attribute__((destructor)) static void tell(void) {
    const char *path = getenv("COUNTED");
    int file = path ? open(path, O_WRONLY | O_CREAT | O_TRUNC, 0600) : -1;
    if (file >= 0) dprintf(file, "%ld\n", atomic_load(&made));
    long left = atomic_load(&held);
    if (!left) return;
    dprintf(STDERR_FILENO, "%ld pieces of memory are not given back\n", left);
    for (;;) syscall(SYS_exit_group, 1);
}

// How a program ends that may have threads: no destructor runs.
void _exit(int status) {
    tell();
    for (;;) syscall(SYS_exit_group, status);
}
