/* The stream of cases on standard input; harness/vectors/src/boundary/mod.rs tells its form. */
#ifndef BOUNDARY_STREAM_H
#define BOUNDARY_STREAM_H

#include "libc.h"

/* The next bytes. A stream that is over before them ends the program. */
void next_bytes(unsigned char *to, size length);

/* A number in so many bytes, the low one first. */
unsigned long next_number(size length);

/* How many bytes were taken so far. */
unsigned long bytes_taken(void);

/* Nothing may follow. */
void expect_end(void);

#endif
