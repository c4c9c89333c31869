/* What the programs here take from the C library: the kit has no header files. */
#ifndef LIBC_H
#define LIBC_H

struct timespec {
    long tv_sec;
    long tv_nsec;
};

enum { CLOCK_MONOTONIC = 1 };

int clock_gettime(int clock, struct timespec *time);
int printf(const char *format, ...);
int dprintf(int file, const char *format, ...);
int scanf(const char *format, ...);
int open(const char *name, int flags, ...);
int close(int file);
long read(int file, void *buffer, __SIZE_TYPE__ size);
long write(int file, const void *buffer, __SIZE_TYPE__ size);
unsigned long strtoul(const char *text, char **end, int base);
int strcmp(const char *left, const char *right);
int memcmp(const void *left, const void *right, __SIZE_TYPE__ size);
void *memset(void *bytes, int value, __SIZE_TYPE__ size);

/* Reads until the buffer is full or the input ends; how much there was, or -1 where reading failed. */
static inline long read_all(int file, unsigned char *buffer, long size)
{
    long length = 0, got = 1;
    while (length < size && got > 0) {
        got = read(file, buffer + length, (__SIZE_TYPE__)(size - length));
        length += got > 0 ? got : 0;
    }
    return got < 0 ? -1 : length;
}

#endif
