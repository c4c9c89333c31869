/*
 * The yardstick's dates on standard input. For a line "n NUMBER MODE" it prints the seven bytes of the number's time,
 * in 12-hour mode (0) or 24-hour mode (1), for a line "t" with seven bytes their number, or "none" if there is none.
 */
#include "dates.h"
#include "libc.h"

static void print_time(unsigned int number, int mode_24)
{
    unsigned char time[7];
    if (!dates_time(number, mode_24, time)) {
        printf("none\n");
        return;
    }
    for (int at = 0; at < 7; at++)
        printf("%u%c", time[at], at < 6 ? ' ' : '\n');
}

static void print_number(const unsigned char time[7])
{
    unsigned int number = dates_number(time);
    if (number == DATES_NONE)
        printf("none\n");
    else
        printf("%u\n", number);
}

static int scan_time(unsigned char time[7])
{
    for (int at = 0; at < 7; at++)
        if (scanf("%hhu", time + at) != 1)
            return 0;
    return 1;
}

int main(void)
{
    unsigned int number, mode;
    unsigned char time[7];
    char what;
    while (scanf(" %c", &what) == 1) {
        if (what == 'n' && scanf("%u %u", &number, &mode) == 2)
            print_time(number, (int)mode);
        else if (what == 't' && scan_time(time))
            print_number(time);
        else
            return 1;
    }
    return 0;
}
