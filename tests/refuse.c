// Preloaded into a program, this counts its calls for memory and refuses one of them, and fails one read or write.
//
//   REFUSE_AT=N         the Nth call of malloc, calloc or realloc gets no memory (none: each gets it)
//   REFUSE_ABOVE=BYTES  a call for more bytes than these gets none, as of a system that has no more in one piece
//   REFUSE_READ_AT=N    the Nth read of the standard input fails
//   REFUSE_WRITE_AT=N   the Nth write to the standard output fails
//   REFUSE_REPORT=FILE  at the end the file has one line: the calls made, the blocks still held, the most bytes held at one time
//
// A block that the dynamic linker asks for is none that the program holds: such is each thread's own storage, which the C
// library keeps for the next thread.
//
//   cc -O2 -shared -fPIC -o refuse.so refuse.c && LD_PRELOAD=./refuse.so REFUSE_AT=3 program
#include <errno.h>
#include <fcntl.h>
#include <malloc.h>
#include <stdatomic.h>
#include <stdio.h>
#include <stdint.h>
#include <stdlib.h>
#include <sys/auxv.h>
#include <sys/syscall.h>
#include <sys/types.h>
#include <unistd.h>

extern void *__libc_malloc(size_t size);
extern void *__libc_realloc(void *block, size_t size);
extern void __libc_free(void *block);

static _Atomic size_t calls, refused, above, reads, writes, blocks, held, most;
static _Atomic char is_ready;

static size_t number_of(const char *name) {
    const char *number = getenv(name);
    return number ? strtoul(number, 0, 10) : 0;
}

static int is_refused(size_t size) {
    if (!is_ready) {
        refused = number_of("REFUSE_AT");
        above = number_of("REFUSE_ABOVE");
        is_ready = 1;
    }
    if (++calls != refused && !(above && size > above))
        return 0;
    errno = ENOMEM;
    return 1;
}

// The dynamic linker's blocks, and how many bytes from where it is loaded its code reaches at most.
static void *_Atomic linkers[1024];
static const uintptr_t LINKER_BYTES = 1 << 20;

static int is_linker(const void *caller) {
    return (uintptr_t)caller - getauxval(AT_BASE) < LINKER_BYTES;
}

// Puts `one` where `other` stands, and says whether that was found.
static int exchanged(void *other, void *one) {
    for (size_t i = 0; i < sizeof linkers / sizeof *linkers; i++) {
        void *there = linkers[i];
        if (there == other && atomic_compare_exchange_strong(&linkers[i], &there, one))
            return 1;
    }
    return 0;
}

static void *taken(void *block, const void *caller) {
    if (block && !(is_linker(caller) && exchanged(0, block))) {
        blocks++;
        held += malloc_usable_size(block);
        most = held > most ? held : most;
    }
    return block;
}

static void given(void *block) {
    if (block && !exchanged(block, 0)) {
        blocks--;
        held -= malloc_usable_size(block);
    }
}

void *malloc(size_t size) {
    return is_refused(size) ? 0 : taken(__libc_malloc(size), __builtin_return_address(0));
}

void *calloc(size_t count, size_t size) {
    size_t whole;
    if (__builtin_mul_overflow(count, size, &whole) || is_refused(whole))
        return 0;
    char *block = taken(__libc_malloc(whole), __builtin_return_address(0));
    for (size_t i = 0; block && i < whole; i++)
        block[i] = 0;
    return block;
}

void *realloc(void *block, size_t size) {
    if (is_refused(size))
        return 0;
    given(block);
    void *moved = __libc_realloc(block, size);
    taken(moved ? moved : block, __builtin_return_address(0));
    return moved;
}

void free(void *block) {
    given(block);
    __libc_free(block);
}

ssize_t read(int file, void *buffer, size_t size) {
    // (what was held and given back before the first line is not what the lines hold)
    if (file == 0 && reads == 0)
        most = held;
    if (file == 0 && ++reads == number_of("REFUSE_READ_AT")) {
        errno = EIO;
        return -1;
    }
    return syscall(SYS_read, file, buffer, size);
}

ssize_t write(int file, const void *buffer, size_t size) {
    if (file == 1 && ++writes == number_of("REFUSE_WRITE_AT")) {
        errno = EIO;
        return -1;
    }
    return syscall(SYS_write, file, buffer, size);
}

// (a program with threads ends by `_exit`, which runs no destructors)
__attribute__((destructor)) static void report(void) {
    const char *file = getenv("REFUSE_REPORT");
    char line[96];
    int out = file ? open(file, O_WRONLY | O_CREAT | O_TRUNC, 0644) : -1;
    if (out < 0)
        return;
    // (a thread whose work is done may still be giving its own block back)
    for (int turn = 0; blocks && turn < 100; turn++)
        usleep(10000);
    int length = snprintf(line, sizeof line, "%zu %zu %zu\n", calls, blocks, most);
    if (write(out, line, length) != length)
        abort();
    close(out);
}

void _exit(int status) {
    report();
    for (;;)
        syscall(SYS_exit_group, status);
}
