/*
 * Buffers as they are lent to a call: each stands amid bytes that must stay, and every byte that the call has no
 * business with is looked at afterwards. A buffer begins at another address each time, so that odd ones come up.
 */
#ifndef BOUNDARY_LENT_H
#define BOUNDARY_LENT_H

#include "libc.h"

/* So many bytes are watched before a buffer and behind it. */
#define GUARD 64

/* Buffers begin at so many addresses in a row, and then at the first again. */
#define PLACES 16

/* The longest output, and the longest of any other buffer. */
#define MOST_OUTPUT 0x100000
#define MOST_OTHER 70000

struct lent {
    const char *name;
    unsigned char *space;
    size most;
    size at;
    size length;
};

extern struct lent start_lent, file_lent, output_lent, state_lent;

/* A buffer of this length. Its first bytes are the given ones, and all others are a pattern. */
unsigned char *lend(struct lent *lent, const unsigned char *given, size given_length, size length);

/* The buffer's first bytes are to be these, and all others as they were lent. */
void expect_lent(const struct lent *lent, const unsigned char *expected, size expected_length);

#endif
