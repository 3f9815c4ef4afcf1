/* malloc, realloc and free of a module for a page. A block has a power of two of bytes; the first 16 say which one, and those after them
 * are the caller's. A free block waits in the list of its power. Nothing proves it. */
#include <stdint.h>
#include <stdlib.h>
#include <string.h>

enum { HEAD = 16, LEAST = 5, POWERS = 40, PAGE = 65536, PAGES_AT_ONCE = 64 };

struct block {
    size_t power;
    struct block *next;
};

extern unsigned char __heap_base;
static struct block *waiting[POWERS];
static uintptr_t top;

/* A block behind all others, for which the memory grows where it must. */
static struct block *added(size_t power) {
    if (!top) top = ((uintptr_t)&__heap_base + HEAD - 1) / HEAD * HEAD;
    size_t size = (size_t)1 << power, left = __builtin_wasm_memory_size(0) * PAGE - top;
    if (left < size) {
        size_t pages = (size - left + PAGE - 1) / PAGE;
        if (pages < PAGES_AT_ONCE) pages = PAGES_AT_ONCE;
        if (__builtin_wasm_memory_grow(0, pages) == (size_t)-1) return NULL;
    }
    struct block *it = (struct block *)top;
    top += size;
    it->power = power;
    return it;
}

void *malloc(size_t length) {
    size_t power = LEAST;
    while (power < POWERS && ((size_t)1 << power) - HEAD < length) power++;
    if (power == POWERS) return NULL;
    struct block *it = waiting[power];
    if (it) waiting[power] = it->next;
    else it = added(power);
    return it ? (char *)it + HEAD : NULL;
}

void free(void *block) {
    if (!block) return;
    struct block *it = (struct block *)((char *)block - HEAD);
    it->next = waiting[it->power];
    waiting[it->power] = it;
}

void *realloc(void *block, size_t length) {
    if (!block) return malloc(length);
    size_t had = ((size_t)1 << ((struct block *)((char *)block - HEAD))->power) - HEAD;
    if (length <= had) return block;
    void *other = malloc(length);
    if (!other) return NULL;
    memcpy(other, block, had);
    free(block);
    return other;
}
