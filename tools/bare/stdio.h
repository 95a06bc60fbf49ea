/* For x86-64 Linux with no C headers: of the C library's, what the C here uses. */
#ifndef BARE_STDIO_H
#define BARE_STDIO_H
#include <stddef.h>
typedef struct FILE FILE;
extern FILE *stdin, *stdout, *stderr;
FILE *fopen(const char *name, const char *mode);
int fclose(FILE *file);
size_t fread(void *to, size_t size, size_t count, FILE *file);
size_t fwrite(const void *from, size_t size, size_t count, FILE *file);
int fflush(FILE *file);
int printf(const char *format, ...);
int fprintf(FILE *file, const char *format, ...);
#endif
