// The same work by the C library: memset and memcpy.
#include <stdio.h>
#include <stdlib.h>
#include <string.h>
#include <time.h>

static long long micros(void) {
    struct timespec t;
    clock_gettime(CLOCK_MONOTONIC, &t);
    return t.tv_sec * 1000000LL + t.tv_nsec / 1000;
}

static void time_page(size_t size, const char *name, int rounds) {
    unsigned char *one = malloc(size), *two = malloc(size);
    if (!one || !two) exit(1);
    memset(one, 1, size);
    memset(two, 1, size);
    long long start = micros();
    for (int i = 0; i < rounds; i++) {
        memset(one, 0, size);
        ((volatile unsigned char *)one)[0] = i % 251;
        __asm__ volatile("" ::: "memory");
    }
    printf("zero a page of %s, %d times: %lld us\n", name, rounds, micros() - start);
    start = micros();
    for (int i = 0; i < rounds; i++) {
        ((volatile unsigned char *)one)[0] = i % 251;
        memcpy(two, one, size);
        __asm__ volatile("" ::: "memory");
    }
    printf("copy a page of %s, %d times: %lld us\n", name, rounds, micros() - start);
    free(one);
    free(two);
}

int main(void) {
    time_page(2097152, "2 MiB", 2000);
    time_page(1024, "1 KiB", 1000000);
    return 0;
}
