/* For x86-64 Linux with no C headers. */
#ifndef BARE_STDDEF_H
#define BARE_STDDEF_H
typedef unsigned long size_t;
#define NULL ((void *)0)
#endif
