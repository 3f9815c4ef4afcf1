/* What a module for a page has of C's headers; no C library is there. */
#ifndef PAGE_STDDEF_H
#define PAGE_STDDEF_H
typedef __SIZE_TYPE__ size_t;
#define NULL ((void *)0)
#endif
