/* C's own header, as much of it as the hosts use: the kit's clang brings none, and an Arm machine has none for x86-64. */
#ifndef STDDEF_H
#define STDDEF_H
typedef unsigned long size_t;
#define NULL ((void *)0)
#endif
