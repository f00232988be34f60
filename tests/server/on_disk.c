// Preloaded into a program, this gives each large block a file of its own without a name, in the folder ON_DISK. The system
// writes it out where memory is short: so a program can fill more than the machine has.
//
//   cc -O2 -shared -fPIC -o on_disk.so on_disk.c && LD_PRELOAD=./on_disk.so ON_DISK=/var/tmp program
#define _GNU_SOURCE
#include <errno.h>
#include <fcntl.h>
#include <malloc.h>
#include <pthread.h>
#include <stdlib.h>
#include <string.h>
#include <sys/mman.h>
#include <unistd.h>

extern void *__libc_malloc(size_t size);
extern void *__libc_calloc(size_t count, size_t each);
extern void *__libc_realloc(void *block, size_t size);
extern void __libc_free(void *block);

static const size_t LARGE = 1 << 24;

struct large {
    void *block;
    size_t size;
    int file;
};

static struct large all[256];
static pthread_mutex_t lock = PTHREAD_MUTEX_INITIALIZER;

// The place of a block, or a free one for none. The caller holds the lock.
static struct large *place_of(const void *block) {
    for (size_t i = 0; i < sizeof all / sizeof *all; i++)
        if (all[i].block == block)
            return all + i;
    return 0;
}

static void *made(size_t size) {
    const char *folder = getenv("ON_DISK");
    int file = folder ? open(folder, O_TMPFILE | O_RDWR | O_CLOEXEC, 0600) : -1;
    void *block = MAP_FAILED;
    if (file >= 0 && ftruncate(file, (off_t)size) == 0)
        block = mmap(0, size, PROT_READ | PROT_WRITE, MAP_SHARED, file, 0);
    pthread_mutex_lock(&lock);
    struct large *place = block == MAP_FAILED ? 0 : place_of(0);
    if (place)
        *place = (struct large){block, size, file};
    pthread_mutex_unlock(&lock);
    if (place)
        return block;
    if (block != MAP_FAILED)
        munmap(block, size);
    if (file >= 0)
        close(file);
    errno = ENOMEM;
    return 0;
}

void *malloc(size_t size) {
    return size < LARGE ? __libc_malloc(size) : made(size);
}

void *calloc(size_t count, size_t each) {
    // (a new file is of zeros)
    size_t size;
    int is_large = !__builtin_mul_overflow(count, each, &size) && size >= LARGE;
    return is_large ? made(size) : __libc_calloc(count, each);
}

void free(void *block) {
    struct large gone = {0};
    if (block) {
        pthread_mutex_lock(&lock);
        struct large *place = place_of(block);
        if (place) {
            gone = *place;
            place->block = 0;
        }
        pthread_mutex_unlock(&lock);
    }
    if (!gone.block) {
        __libc_free(block);
        return;
    }
    munmap(gone.block, gone.size);
    close(gone.file);
}

void *realloc(void *block, size_t size) {
    if (!block)
        return malloc(size);
    pthread_mutex_lock(&lock);
    struct large *place = place_of(block);
    size_t old = place ? place->size : 0;
    pthread_mutex_unlock(&lock);
    if (!old && size < LARGE)
        return __libc_realloc(block, size);
    old = old ? old : malloc_usable_size(block);
    void *other = malloc(size);
    if (!other)
        return 0;
    memcpy(other, block, old < size ? old : size);
    free(block);
    return other;
}
