/* Numbers as bytes, low byte first. */
#ifndef NUMBERS_H
#define NUMBERS_H

static inline void put_number(unsigned char *bytes, unsigned int number, int size)
{
    for (int at = 0; at < size; at++)
        bytes[at] = (unsigned char)(number >> 8 * at);
}

static inline unsigned int number_at(const unsigned char *bytes, int size)
{
    unsigned int number = 0;
    for (int at = size - 1; at >= 0; at--)
        number = number << 8 | bytes[at];
    return number;
}

#endif
