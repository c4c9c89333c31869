/* One second on, for any seven bytes of time (rules, section 3). */
#ifndef CALENDAR_H
#define CALENDAR_H

#include "registers.h"

enum { MODE_24 = 0x80, PM = 0x20, MIDNIGHT_24 = 0x80, MIDNIGHT_12 = 0x12 };

/* The value that follows in a field; its first one behind the last and behind an illegal one. */
static unsigned char next_value(unsigned char byte, unsigned char first, unsigned char last)
{
    unsigned char units = byte & 0x0F;
    if (byte < first || byte >= last || units > 9)
        return first;
    return byte + (units == 9 ? 7 : 1);
}

static unsigned char next_hour(unsigned char hour)
{
    unsigned char half = hour & PM, code = hour & ~PM;
    if (hour & MODE_24)
        return MODE_24 | next_value(hour & ~MODE_24, 0x00, 0x23);
    if (code == 0x12)
        return half | 0x01;
    if (code == 0x11 && !half)
        return PM | 0x12;
    /* 11 in the evening is the last code, and 12 has been seen to. */
    code = next_value(code, 0x01, 0x11);
    return code == 0x01 ? MIDNIGHT_12 : half | code;
}

static int is_leap(unsigned char year)
{
    unsigned char tens = year >> 4, units = year & 0x0F;
    return tens <= 9 && units <= 9 && (2 * tens + units) % 4 == 0;
}

static unsigned char last_day(unsigned char month, unsigned char year)
{
    switch (month) {
    case 0x04:
    case 0x06:
    case 0x09:
    case 0x11:
        return 0x30;
    case 0x02:
        return is_leap(year) ? 0x29 : 0x28;
    default:
        return 0x31;
    }
}

static void day_on(unsigned char *time)
{
    time[WEEKDAY] = time[WEEKDAY] < 6 ? time[WEEKDAY] + 1 : 0;
    time[DAY] = next_value(time[DAY], 0x01, last_day(time[MONTH], time[YEAR]));
    if (time[DAY] != 0x01)
        return;
    time[MONTH] = next_value(time[MONTH], 0x01, 0x12);
    if (time[MONTH] == 0x01)
        time[YEAR] = next_value(time[YEAR], 0x00, 0x99);
}

static void second_on(unsigned char *time)
{
    time[SECONDS] = next_value(time[SECONDS], 0x00, 0x59);
    if (time[SECONDS] != 0x00)
        return;
    time[MINUTES] = next_value(time[MINUTES], 0x00, 0x59);
    if (time[MINUTES] != 0x00)
        return;
    time[HOURS] = next_hour(time[HOURS]);
    if (time[HOURS] == MIDNIGHT_24 || time[HOURS] == MIDNIGHT_12)
        day_on(time);
}

#endif
