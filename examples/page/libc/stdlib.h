#include <stddef.h>
void *malloc(size_t length);
void *realloc(void *block, size_t length);
void free(void *block);
