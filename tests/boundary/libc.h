/* The few functions of the C library that are used here: the kit has no header files. */
#ifndef BOUNDARY_LIBC_H
#define BOUNDARY_LIBC_H

typedef __SIZE_TYPE__ size;

void exit(int status);
void *memcpy(void *to, const void *from, size length);
void *mmap(void *address, size length, int protection, int flags, int file, long offset);
int mprotect(void *address, size length, int protection);
int printf(const char *form, ...);
long read(int file, void *to, size length);
void (*signal(int number, void (*handler)(int)))(int);

#define SEGMENT_FAULT 11

#endif
