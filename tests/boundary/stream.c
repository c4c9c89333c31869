#include "stream.h"

#include "report.h"

static unsigned char buffer[65536];
static size begin, end;
static unsigned long taken_before;

/* Reads on, and tells whether there is more. The buffer is empty before. */
static int fill(void)
{
    taken_before += end;
    begin = 0;
    long length = read(0, buffer, sizeof buffer);
    end = length > 0 ? (size)length : 0;
    return end != 0;
}

unsigned long bytes_taken(void)
{
    return taken_before + begin;
}

void next_bytes(unsigned char *to, size length)
{
    for (size at = 0; at < length; at++) {
        if (begin == end && !fill())
            give_up("the cases on standard input are cut off at byte", bytes_taken());
        to[at] = buffer[begin++];
    }
}

unsigned long next_number(size length)
{
    unsigned char bytes[8];
    unsigned long number = 0;
    next_bytes(bytes, length);
    while (length > 0)
        number = number << 8 | bytes[--length];
    return number;
}

void expect_end(void)
{
    if (begin != end || fill())
        give_up("something follows the end of the cases at byte", bytes_taken());
}
