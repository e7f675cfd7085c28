/* Sizes and offsets of x86-64 Linux, for the kit's compiler, which comes without headers. */
#ifndef GSI_STDDEF_H
#define GSI_STDDEF_H
typedef unsigned long size_t;
typedef long ptrdiff_t;
#define NULL ((void *)0)
#define offsetof(type, member) __builtin_offsetof(type, member)
#endif
