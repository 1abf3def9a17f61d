/* The kit's clang has no headers of its own: what mastclover.h needs of this one. */
#ifndef MAST_TARGETS_STDDEF_H
#define MAST_TARGETS_STDDEF_H
typedef __SIZE_TYPE__ size_t;
#define NULL ((void *)0)
#define offsetof(type, field) __builtin_offsetof(type, field)
#endif
