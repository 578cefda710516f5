/* Counts calls for bench/ingest.sh. It is loaded before a program that is linked to the C library dynamically. The counts
 * stand in the file that CALLS names, as four numbers of 8 bytes: allocations (malloc, calloc and realloc), reads, writes of
 * blocks, and syncs. Since the file is mapped, they are there however the program ends. */
#define _GNU_SOURCE
#include <fcntl.h>
#include <stdint.h>
#include <stdlib.h>
#include <sys/mman.h>
#include <sys/syscall.h>
#include <unistd.h>

enum { ALLOCATIONS, READS, WRITES, SYNCS, KINDS };

static uint64_t before[KINDS];
static uint64_t *counts = before;

void *__libc_malloc(size_t size);
void *__libc_calloc(size_t count, size_t size);
void *__libc_realloc(void *old, size_t size);

__attribute__((constructor)) static void map(void) {
    const char *path = getenv("CALLS");
    int file = path == NULL ? -1 : open(path, O_RDWR);
    if (file < 0)
        return;
    void *mapped = mmap(NULL, sizeof before, PROT_READ | PROT_WRITE, MAP_SHARED, file, 0);
    close(file);
    if (mapped == MAP_FAILED)
        return;
    counts = mapped;
    for (int kind = 0; kind < KINDS; kind++)
        counts[kind] = before[kind];
}

void *malloc(size_t size) {
    counts[ALLOCATIONS]++;
    return __libc_malloc(size);
}

void *calloc(size_t count, size_t size) {
    counts[ALLOCATIONS]++;
    return __libc_calloc(count, size);
}

void *realloc(void *old, size_t size) {
    counts[ALLOCATIONS]++;
    return __libc_realloc(old, size);
}

ssize_t read(int file, void *to, size_t count) {
    counts[READS]++;
    return syscall(SYS_read, file, to, count);
}

ssize_t pwrite(int file, const void *from, size_t count, off_t at) {
    counts[WRITES]++;
    return syscall(SYS_pwrite64, file, from, count, at);
}

ssize_t pwrite64(int file, const void *from, size_t count, off_t at) {
    return pwrite(file, from, count, at);
}

int fsync(int file) {
    counts[SYNCS]++;
    return (int)syscall(SYS_fsync, file);
}

int fdatasync(int file) {
    counts[SYNCS]++;
    return (int)syscall(SYS_fdatasync, file);
}
