// What this machine gives to threads that meet at one lock: lock WORK
// First the nanoseconds that a cache line takes from one processor to another, the least and the most of all pairs. Then the sections a
// second of one thread and of four: each takes the lock, counts two words, frees it, and goes WORK times round a loop of its own. The words
// stand on the lock's cache line, and then on the next. A lock that is held is waited for as hold() of hp_locked does.
#define _GNU_SOURCE
#include <linux/futex.h>
#include <pthread.h>
#include <sched.h>
#include <stdatomic.h>
#include <stdio.h>
#include <stdlib.h>
#include <sys/syscall.h>
#include <time.h>
#include <unistd.h>

enum { PROCESSORS = 4, TRIES = 11, ROUNDS = 5, BOUNCES = 100000, SECTIONS = 700000 };

static _Alignas(128) char room[256];
static atomic_int *word;
static volatile long *counts;
static _Alignas(128) atomic_long ball;
static int work;

static double now(void) {
    struct timespec t;
    clock_gettime(CLOCK_MONOTONIC, &t);
    return t.tv_sec * 1e9 + t.tv_nsec;
}

static void pin(int processor) {
    cpu_set_t set;
    CPU_ZERO(&set);
    CPU_SET(processor, &set);
    pthread_setaffinity_np(pthread_self(), sizeof set, &set);
}

static void bounce(int processor, long first) {
    pin(processor);
    for (long i = first; i < 2 * BOUNCES; i += 2) {
        while (atomic_load_explicit(&ball, memory_order_acquire) != i) {
        }
        atomic_store_explicit(&ball, i + 1, memory_order_release);
    }
}

static void *other_side(void *processor) {
    bounce((int)(long)processor, 1);
    return NULL;
}

static double line_time(int one, int two) {
    pthread_t other;
    atomic_store(&ball, 0);
    pthread_create(&other, NULL, other_side, (void *)(long)two);
    double start = now();
    bounce(one, 0);
    pthread_join(other, NULL);
    return (now() - start) / (2 * BOUNCES);
}

static int is_taken(void) {
    int free = 0;
    return atomic_compare_exchange_strong(word, &free, 1);
}

// 1: held; 2: held, and others may sleep
static void take(void) {
    if (is_taken()) return;
    for (int tried = 0; tried < TRIES; tried++) {
        for (int turn = 0; turn < 1 << (tried > 2 ? tried - 2 : 0); turn++) sched_yield();
        if (is_taken()) return;
    }
    while (atomic_exchange(word, 2) != 0) syscall(SYS_futex, word, FUTEX_WAIT_PRIVATE, 2, NULL);
}

static void give(void) {
    if (atomic_exchange(word, 0) == 2) syscall(SYS_futex, word, FUTEX_WAKE_PRIVATE, 1);
}

static void *sections(void *unused) {
    volatile long own = 0;
    for (long i = 0; i < SECTIONS; i++) {
        for (int j = 0; j < work; j++) own++;
        take();
        counts[0]++;
        counts[1]--;
        give();
    }
    return unused;
}

// The best of some rounds, in million sections a second.
static double rate(int threads, int offset) {
    double best = 0;
    word = (atomic_int *)(room + offset);
    counts = (volatile long *)(room + offset + 8);
    for (int round = 0; round < ROUNDS; round++) {
        pthread_t all[PROCESSORS];
        double start = now();
        for (int i = 0; i < threads; i++) pthread_create(&all[i], NULL, sections, NULL);
        for (int i = 0; i < threads; i++) pthread_join(all[i], NULL);
        double found = threads * SECTIONS * 1e3 / (now() - start);
        if (found > best) best = found;
    }
    return best;
}

int main(int count, char **words) {
    work = count > 1 ? atoi(words[1]) : 350;
    double least = 1e9, most = 0;
    for (int one = 0; one < PROCESSORS; one++) {
        for (int two = one + 1; two < PROCESSORS; two++) {
            double found = line_time(one, two);
            least = found < least ? found : least;
            most = found > most ? found : most;
        }
    }
    cpu_set_t all;
    CPU_ZERO(&all);
    for (int processor = 0; processor < PROCESSORS; processor++) CPU_SET(processor, &all);
    pthread_setaffinity_np(pthread_self(), sizeof all, &all);
    printf("a line goes to another processor in %.0f to %.0f ns\n", least, most);
    const int offsets[] = {0, 56};
    const char *where[] = {"beside the lock's word", "on the next line"};
    for (int i = 0; i < 2; i++) {
        double one = rate(1, offsets[i]), four = rate(PROCESSORS, offsets[i]);
        printf("two words %s: one thread %.1f million sections a second, four %.1f, %.2f times\n", where[i], one, four, four / one);
    }
    return 0;
}
