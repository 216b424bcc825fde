/* C's own header, as much of it as the hosts use (see stddef.h), for glibc. */
#ifndef STDIO_H
#define STDIO_H
#include <stddef.h>
typedef struct _IO_FILE FILE;
extern FILE *stdin;
extern FILE *stdout;
extern FILE *stderr;
int printf(const char *format, ...);
int fprintf(FILE *to, const char *format, ...);
FILE *fopen(const char *path, const char *mode);
size_t fread(void *to, size_t size, size_t count, FILE *from);
int ferror(FILE *of);
int fclose(FILE *at);
void perror(const char *what);
#endif
