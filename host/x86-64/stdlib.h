/* C's own header, as much of it as the hosts use (see stddef.h). */
#ifndef STDLIB_H
#define STDLIB_H
#include <stddef.h>
void *malloc(size_t size);
void free(void *at);
void exit(int status);
#endif
