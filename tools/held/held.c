// Laid in front of a built program: writes how many bytes of the heap it holds, how often it asked
// for some, how often a thread slept on a word or woke those who do, and how many of these calls
// wake more than one, to the file that HELD names, with each line of its standard output.
#define _GNU_SOURCE
#include <dlfcn.h>
#include <fcntl.h>
#include <linux/futex.h>
#include <malloc.h>
#include <stdarg.h>
#include <stdatomic.h>
#include <stdio.h>
#include <stdlib.h>
#include <sys/syscall.h>
#include <unistd.h>

// The C library's own calls under the names that nothing is laid in front of.
void *__libc_malloc(size_t size);
void *__libc_calloc(size_t count, size_t size);
void *__libc_realloc(void *old, size_t size);
void *__libc_memalign(size_t alignment, size_t size);
void __libc_free(void *place);

static atomic_long held = 0;
static atomic_long requests = 0;
static atomic_long futexes = 0;
static atomic_long wakes_of_many = 0;

static void *taken(void *place) {
    atomic_fetch_add(&requests, 1);
    atomic_fetch_add(&held, (long)malloc_usable_size(place));
    return place;
}

void *malloc(size_t size) { return taken(__libc_malloc(size)); }

void *calloc(size_t count, size_t size) { return taken(__libc_calloc(count, size)); }

void *realloc(void *old, size_t size) {
    long before = (long)malloc_usable_size(old);
    void *place = __libc_realloc(old, size);
    if (place || size == 0) atomic_fetch_sub(&held, before);
    return place ? taken(place) : NULL;
}

void *aligned_alloc(size_t alignment, size_t size) {
    return taken(__libc_memalign(alignment, size));
}

int posix_memalign(void **place, size_t alignment, size_t size) {
    *place = aligned_alloc(alignment, size);
    return *place ? 0 : 12;
}

void free(void *place) {
    atomic_fetch_sub(&held, (long)malloc_usable_size(place));
    __libc_free(place);
}

static long (*next_syscall)(long, ...);

static void find_syscall(void) {
    if (!next_syscall) next_syscall = (long (*)(long, ...))dlsym(RTLD_NEXT, "syscall");
}

long syscall(long number, ...) {
    long words[6];
    va_list given;
    va_start(given, number);
    for (int i = 0; i < 6; i++) words[i] = va_arg(given, long);
    va_end(given);
    find_syscall();
    if (number == SYS_futex) {
        int is_wake = (words[1] & FUTEX_CMD_MASK) == FUTEX_WAKE;
        atomic_fetch_add(&futexes, 1);
        if (is_wake && (int)words[2] > 1) atomic_fetch_add(&wakes_of_many, 1);
    }
    return next_syscall(number, words[0], words[1], words[2], words[3], words[4], words[5]);
}

ssize_t write(int file, const void *bytes, size_t size) {
    static int report = -1;
    find_syscall();
    if (file == STDOUT_FILENO) {
        char text[96];
        long bytes = atomic_load(&held), times = atomic_load(&requests);
        long calls = atomic_load(&futexes), wide = atomic_load(&wakes_of_many);
        int length = snprintf(text, sizeof text, "%ld %ld %ld %ld\n", bytes, times, calls, wide);
        const char *path = getenv("HELD");
        if (report < 0 && path) report = open(path, O_WRONLY | O_CREAT | O_TRUNC, 0600);
        if (report >= 0) next_syscall(SYS_write, report, text, (size_t)length);
    }
    return next_syscall(SYS_write, file, bytes, size);
}
