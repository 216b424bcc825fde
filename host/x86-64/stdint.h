/* C's own header, as much of it as the hosts use (see stddef.h). */
#ifndef STDINT_H
#define STDINT_H
typedef unsigned char uint8_t;
typedef unsigned int uint32_t;
typedef unsigned long uint64_t;
#endif
