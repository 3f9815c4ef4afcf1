/* The heap of the library: the three functions that its code calls, over the program's malloc, realloc and free.
 *
 * A block of no bytes is asked for as one of its alignment, and never dereferenced. A call that fails answers false beside a
 * pointer that isn't null. */
#include <stdbool.h>
#include <stddef.h>
#include <stdlib.h>

struct tried {
    bool done;
    void *block;
};

static char none;

static struct tried tried(void *block) {
    return (struct tried){block != NULL, block ? block : &none};
}

struct tried rattle_alloc(size_t length, size_t alignment) {
    return tried(malloc(length ? length : alignment));
}

struct tried rattle_realloc(void *block, size_t kept, size_t length, size_t alignment) {
    (void)kept;
    return tried(realloc(block, length ? length : alignment));
}

void rattle_dealloc(void *block) {
    free(block);
}
