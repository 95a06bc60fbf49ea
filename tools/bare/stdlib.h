/* For x86-64 Linux with no C headers: of the C library's, what the C here uses. */
#ifndef BARE_STDLIB_H
#define BARE_STDLIB_H
#include <stddef.h>
void *malloc(size_t size);
void free(void *from);
#endif
