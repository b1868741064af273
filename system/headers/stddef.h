/* What the headers of include/ ask of C's, for the kit's clang, which has none. */
#ifndef STDDEF_H
#define STDDEF_H
typedef __SIZE_TYPE__ size_t;
#define NULL ((void *)0)
#endif
