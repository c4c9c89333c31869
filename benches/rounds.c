/*
 * Reads a seed and a count of four bytes each from standard input, turns as many drawn second numbers into times and
 * back, and prints a digest of all of it, as the proved program date_rounds does.
 */
#include "dates.h"
#include "libc.h"
#include "numbers.h"

static unsigned int rounds(unsigned int drawn, unsigned int count)
{
    unsigned int digest = 0;
    unsigned char time[7];
    for (; count != 0; count--) {
        drawn = drawn * 1664525u + 1013904223u;
        dates_time(drawn % DATES_CENTURY, drawn >> 16 & 1, time);
        for (int at = 0; at < 7; at++)
            digest = digest * 31 + time[at];
        digest = digest * 31 + dates_number(time);
    }
    return digest;
}

int main(void)
{
    unsigned char input[8];
    if (read_all(0, input, sizeof input) != sizeof input)
        return 1;
    printf("%u\n", rounds(number_at(input, 4), number_at(input + 4, 4)));
    return 0;
}
