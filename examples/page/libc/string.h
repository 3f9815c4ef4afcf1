#include <stddef.h>
#define memcpy __builtin_memcpy
