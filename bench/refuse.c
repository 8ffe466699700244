/* Refuses one piece of memory: the one of the number in REFUSED, counted from 1. REFUSED=0 refuses none. How many were asked for so far
   stands in the file that COUNTED names, also where the process ends without calling what is to be called at its end. It is loaded before
   the C library: see refused-memory.sh. */
#define _GNU_SOURCE
#include <dlfcn.h>
#include <fcntl.h>
#include <stdio.h>
#include <stdlib.h>
#include <unistd.h>

static long asked;

static void tell(long count) {
    static int file = -2;
    char text[24];
    if (file == -2) {
        const char *name = getenv("COUNTED");
        file = name ? open(name, O_CREAT | O_TRUNC | O_WRONLY, 0644) : -1;
    }
    if (file >= 0) {
        int length = snprintf(text, sizeof text, "%ld\n", count);
        if (pwrite(file, text, length, 0) != length) file = -1;
    }
}

static int refused(void) {
    static long number = -1;
    if (number < 0) {
        const char *text = getenv("REFUSED");
        number = text ? atol(text) : 0;
    }
    long count = __atomic_add_fetch(&asked, 1, __ATOMIC_SEQ_CST);
    tell(count);
    return count == number;
}

void *malloc(size_t size) {
    static void *(*real)(size_t);
    if (!real) real = dlsym(RTLD_NEXT, "malloc");
    return refused() ? NULL : real(size);
}

void *realloc(void *old, size_t size) {
    static void *(*real)(void *, size_t);
    if (!real) real = dlsym(RTLD_NEXT, "realloc");
    return refused() ? NULL : real(old, size);
}

int posix_memalign(void **place, size_t align, size_t size) {
    static int (*real)(void **, size_t, size_t);
    if (!real) real = dlsym(RTLD_NEXT, "posix_memalign");
    return refused() ? 12 : real(place, align, size);
}

void *aligned_alloc(size_t align, size_t size) {
    static void *(*real)(size_t, size_t);
    if (!real) real = dlsym(RTLD_NEXT, "aligned_alloc");
    return refused() ? NULL : real(align, size);
}
