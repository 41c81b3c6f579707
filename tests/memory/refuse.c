/* Refuses memory to the program that it is loaded into: once, the allocation whose number the variable REFUSE has, counted
   from 1, and all from that on whose number the variable REFUSE_FROM has. The variable REFUSE_TELLS has the number of a descriptor, to which the count of all allocations goes in the end.
   Once, and after that no more, it has no file put on the disk: the time whose number the variable REFUSE_SYNC has. */
#define _GNU_SOURCE
#include <errno.h>
#include <limits.h>
#include <stdatomic.h>
#include <stdio.h>
#include <stdlib.h>
#include <sys/syscall.h>
#include <unistd.h>

void *__libc_malloc(size_t size);
void *__libc_calloc(size_t count, size_t size);
void *__libc_realloc(void *old, size_t size);
void *__libc_memalign(size_t align, size_t size);

static atomic_long counted;
static atomic_long synced;
static long refused, refused_from, refused_sync;
static int teller = -1;

static long number_in(const char *name, long other) {
    const char *text = getenv(name);
    return text ? strtol(text, NULL, 10) : other;
}

__attribute__((constructor)) static void begin(void) {
    refused = number_in("REFUSE", 0);
    refused_from = number_in("REFUSE_FROM", LONG_MAX);
    refused_sync = number_in("REFUSE_SYNC", 0);
    teller = (int)number_in("REFUSE_TELLS", -1);
    atomic_store(&counted, 0);
}

__attribute__((destructor)) static void tell(void) {
    char text[32];
    int length = snprintf(text, sizeof text, "%ld\n", atomic_load(&counted));
    if (teller >= 0 && write(teller, text, (size_t)length) != length)
        syscall(SYS_exit_group, 99);
}

/* By this a program with threads ends, past all destructors. */
void _exit(int status) {
    tell();
    for (;;)
        syscall(SYS_exit_group, status);
}

static int is_refused(void) {
    long number = atomic_fetch_add(&counted, 1) + 1;
    if (number != refused && number < refused_from)
        return 0;
    errno = ENOMEM;
    return 1;
}

void *malloc(size_t size) { return is_refused() ? NULL : __libc_malloc(size); }

void *calloc(size_t count, size_t size) { return is_refused() ? NULL : __libc_calloc(count, size); }

void *realloc(void *old, size_t size) { return is_refused() ? NULL : __libc_realloc(old, size); }

void *aligned_alloc(size_t align, size_t size) { return is_refused() ? NULL : __libc_memalign(align, size); }

void *memalign(size_t align, size_t size) { return is_refused() ? NULL : __libc_memalign(align, size); }

int posix_memalign(void **made, size_t align, size_t size) {
    if (is_refused())
        return ENOMEM;
    void *got = __libc_memalign(align, size);
    if (!got)
        return ENOMEM;
    *made = got;
    return 0;
}

static int is_put(long call, int file) {
    if (atomic_fetch_add(&synced, 1) + 1 != refused_sync)
        return (int)syscall(call, file);
    errno = EIO;
    return -1;
}

int fsync(int file) { return is_put(SYS_fsync, file); }

int fdatasync(int file) { return is_put(SYS_fdatasync, file); }
