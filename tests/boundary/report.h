/* Which call is tried, how many were, and the line that ends it all where one is not as it should be. */
#ifndef BOUNDARY_REPORT_H
#define BOUNDARY_REPORT_H

#include "libc.h"

enum function { STATE_SIZE, POWER_ON, STEP, PIN, REGISTER, RUN, FUNCTIONS };

/* What the calls from here on belong to: some words, and the number that they lead to. */
void begin_case(const char *words, unsigned long number);

/* Counts a call; what is compared from here on is its. */
void begin_call(enum function function);

void expect_number(const char *part, unsigned long expected, unsigned long came);
void expect_byte(const char *buffer, long at, unsigned char expected, unsigned char came);
void expect_bytes(const char *buffer, const unsigned char *expected, const unsigned char *came, size length);
void expect_told(unsigned int expected, unsigned int came);
void expect_ran(unsigned long expected, unsigned long came);

/* Where it cannot go on, and the archive is not to blame. */
void give_up(const char *words, unsigned long number);

/* From here on a call that touches memory that is not there is told like any other difference. */
void watch_touches(void);

void print_calls(void);

#endif
