/* Counts the heap blocks of a program, and reads its peak memory at its end. It is loaded before the C library (LD_PRELOAD),
 * and writes to the file that COUNTER_FILE names: how many blocks were made, how often one was grown or shrunk, how many bytes
 * were asked for, and the most memory that was resident, in KB. */
#define _GNU_SOURCE
#include <fcntl.h>
#include <stddef.h>
#include <stdio.h>
#include <stdlib.h>
#include <string.h>
#include <sys/mman.h>
#include <unistd.h>

extern void *__libc_malloc(size_t);
extern void *__libc_calloc(size_t, size_t);
extern void *__libc_realloc(void *, size_t);
extern void *__libc_memalign(size_t, size_t);

struct counts {
    long blocks, regrown, bytes, peak;
};

static struct counts early, *counts = &early;

__attribute__((constructor)) static void start(void) {
    const char *path = getenv("COUNTER_FILE");
    int file = path ? open(path, O_RDWR | O_CREAT, 0600) : -1;
    if (file < 0 || ftruncate(file, sizeof early) != 0)
        return;
    struct counts *shared = mmap(NULL, sizeof early, PROT_READ | PROT_WRITE, MAP_SHARED, file, 0);
    close(file);
    if (shared == MAP_FAILED)
        return;
    *shared = early;
    counts = shared;
}

__attribute__((destructor)) static void end(void) {
    static char text[4096];
    int file = open("/proc/self/status", O_RDONLY);
    long length = file < 0 ? 0 : read(file, text, sizeof text - 1);
    if (file >= 0)
        close(file);
    text[length > 0 ? length : 0] = 0;
    const char *peak = strstr(text, "VmHWM:");
    counts->peak = peak ? strtol(peak + 6, NULL, 10) : 0;
}

static void *made(void *block, size_t size) {
    counts->blocks++;
    counts->bytes += (long)size;
    return block;
}

void *malloc(size_t size) { return made(__libc_malloc(size), size); }
void *calloc(size_t count, size_t size) { return made(__libc_calloc(count, size), count * size); }
void *aligned_alloc(size_t alignment, size_t size) { return made(__libc_memalign(alignment, size), size); }

void *realloc(void *block, size_t size) {
    if (!block)
        return malloc(size);
    counts->regrown++;
    counts->bytes += (long)size;
    return __libc_realloc(block, size);
}

int posix_memalign(void **block, size_t alignment, size_t size) {
    *block = made(__libc_memalign(alignment, size), size);
    return *block ? 0 : 12;
}
