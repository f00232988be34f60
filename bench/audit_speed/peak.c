// Tells on standard error, at each line that a program writes on standard output, how many bytes it holds from malloc and the most
// that it held since the line before.
//   cc -O2 -shared -fPIC -o peak.so peak.c -ldl && LD_PRELOAD=./peak.so program
#define _GNU_SOURCE
#include <dlfcn.h>
#include <malloc.h>
#include <stdio.h>
#include <stdlib.h>
#include <sys/types.h>
#include <unistd.h>

static size_t held, peak;

extern void *__libc_malloc(size_t);
extern void *__libc_calloc(size_t, size_t);
extern void *__libc_realloc(void *, size_t);
extern void *__libc_memalign(size_t, size_t);
extern void __libc_free(void *);

static void *noted(void *p) {
    if (p) {
        held += malloc_usable_size(p);
        if (held > peak) peak = held;
    }
    return p;
}

void *malloc(size_t n) { return noted(__libc_malloc(n)); }
void *calloc(size_t n, size_t m) { return noted(__libc_calloc(n, m)); }
void *aligned_alloc(size_t a, size_t n) { return noted(__libc_memalign(a, n)); }
int posix_memalign(void **p, size_t a, size_t n) {
    *p = noted(__libc_memalign(a, n));
    return *p ? 0 : 12;
}

void free(void *p) {
    if (p) held -= malloc_usable_size(p);
    __libc_free(p);
}

// The old block and the new one may both be there for a while.
void *realloc(void *p, size_t n) {
    size_t old = p ? malloc_usable_size(p) : 0;
    void *q = __libc_realloc(p, n);
    if (q) {
        if (q != p && held + malloc_usable_size(q) > peak) peak = held + malloc_usable_size(q);
        held += malloc_usable_size(q) - old;
        if (held > peak) peak = held;
    }
    return q;
}

ssize_t write(int fd, const void *bytes, size_t count) {
    static ssize_t (*next)(int, const void *, size_t);
    if (!next) next = dlsym(RTLD_NEXT, "write");
    if (fd == 1) {
        char line[100];
        int n = snprintf(line, sizeof line, "held %zu peak %zu\n", held, peak);
        next(2, line, n);
        peak = held;
    }
    return next(fd, bytes, count);
}
