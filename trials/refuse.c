/*
 * A library put before the C library. It counts the growths that the program itself asks for: each malloc, and each
 * realloc to more than the block was asked for with. What libraries ask for doesn't count.
 *
 * REFUSE=N refuses growth number N, counted from 1; with ONWARD each later one too. COUNT names a file of 8 bytes
 * that is there: the count stands in it at each moment, so also after a run that was stopped.
 */
#define _GNU_SOURCE
#include <dlfcn.h>
#include <errno.h>
#include <fcntl.h>
#include <stdatomic.h>
#include <stdint.h>
#include <stdlib.h>
#include <sys/auxv.h>
#include <sys/mman.h>
#include <unistd.h>

extern void *__libc_malloc(size_t size);
extern void *__libc_realloc(void *block, size_t size);

/* What each block was last asked for with; of a freed block too, until its address is given again. */
enum { SLOTS = 1 << 20 };
static struct {
    _Atomic uintptr_t block;
    _Atomic size_t size;
} asked[SLOTS];

static void *program; /* where the program itself is loaded */
static _Atomic long *count;
static long refuse;
static int onward;

static void *loaded_at(const void *address) {
    Dl_info found;
    return dladdr(address, &found) ? found.dli_fbase : NULL;
}

static void fail(const char *why, size_t length) {
    ssize_t written = write(2, why, length);
    (void)written;
    abort();
}
#define FAIL(why) fail("refuse: " why "\n", sizeof("refuse: " why))

__attribute__((constructor)) static void begin(void) {
    const char *number = getenv("REFUSE"), *path = getenv("COUNT");
    int file = path ? open(path, O_RDWR) : -1;
    void *memory = mmap(NULL, sizeof(*count), PROT_READ | PROT_WRITE, MAP_SHARED, file, 0);
    if (memory == MAP_FAILED)
        FAIL("COUNT has to name a file of 8 bytes");
    close(file);
    program = loaded_at((const void *)getauxval(AT_ENTRY));
    refuse = number ? atol(number) : 0;
    onward = getenv("ONWARD") != NULL;
    count = memory;
}

static size_t slot_of(uintptr_t block) {
    size_t slot = block / 16 * 0x9E3779B97F4A7C15u >> 44;
    for (size_t tries = 0; tries < SLOTS; tries++, slot = (slot + 1) % SLOTS) {
        uintptr_t there = 0;
        if (atomic_compare_exchange_strong(&asked[slot].block, &there, block) || there == block)
            return slot;
    }
    FAIL("too many blocks");
    return 0;
}

static void *note(void *block, size_t size) {
    if (block)
        asked[slot_of((uintptr_t)block)].size = size;
    return block;
}

static int is_refused(const void *caller) {
    if (!count || loaded_at(caller) != program)
        return 0;
    long number = ++*count;
    return refuse && (onward ? number >= refuse : number == refuse);
}

static void *nothing(void) {
    errno = ENOMEM;
    return NULL;
}

void *malloc(size_t size) {
    if (is_refused(__builtin_return_address(0)))
        return nothing();
    return note(__libc_malloc(size), size);
}

void *realloc(void *block, size_t size) {
    int grows = !block || size > asked[slot_of((uintptr_t)block)].size;
    if (grows && is_refused(__builtin_return_address(0)))
        return nothing();
    return note(__libc_realloc(block, size), size);
}
