#include "dates.h"

enum { DAY_SECONDS = 86400, FOUR_YEARS = 1461, NO_HOUR = 24 };

static unsigned char bcd(unsigned int number)
{
    return (unsigned char)(number + 6 * (number / 10));
}

static unsigned int decimal(unsigned char byte)
{
    return byte - 6u * (byte >> 4);
}

static int is_decimal(unsigned char byte)
{
    return (byte & 0x0F) <= 9 && byte <= 0x99;
}

static unsigned char hour_byte(unsigned int hour, int mode_24)
{
    unsigned int half = hour % 12;
    if (mode_24)
        return 0x80 | bcd(hour);
    return bcd(half == 0 ? 12 : half) | (hour < 12 ? 0x00 : 0x20);
}

/* 0 to 23, or NO_HOUR. */
static unsigned int hour_number(unsigned char byte)
{
    unsigned char digits = byte & (byte & 0x80 ? 0x7F : 0xDF);
    unsigned int hour = decimal(digits);
    if (!is_decimal(digits))
        return NO_HOUR;
    if (byte & 0x80)
        return hour <= 23 ? hour : NO_HOUR;
    return hour >= 1 && hour <= 12 ? hour % 12 + (byte & 0x20 ? 12 : 0) : NO_HOUR;
}

/* Years are counted from a March on here: the leap day comes last, and months have 153 days in five. */
int dates_time(unsigned int number, int mode_24, unsigned char time[7])
{
    if (number >= DATES_CENTURY)
        return 0;
    unsigned int second = number % DAY_SECONDS, day = number / DAY_SECONDS + 1401; /* from 1 March 1996 */
    unsigned int year = (4 * day + 3) / FOUR_YEARS, day_of_year = day - FOUR_YEARS * year / 4;
    unsigned int month = (5 * day_of_year + 2) / 153;
    time[0] = bcd(second % 60);
    time[1] = bcd(second / 60 % 60);
    time[2] = hour_byte(second / 3600, mode_24);
    time[3] = 0;
    time[4] = bcd(day_of_year - (153 * month + 2) / 5 + 1);
    time[5] = bcd(month < 10 ? month + 3 : month - 9);
    time[6] = bcd(year - 4 + (month >= 10));
    return 1;
}

static unsigned int month_days(unsigned int month, unsigned int year)
{
    static const unsigned char days[12] = {31, 28, 31, 30, 31, 30, 31, 31, 30, 31, 30, 31};
    return days[month - 1] + (month == 2 && year % 4 == 0);
}

unsigned int dates_number(const unsigned char time[7])
{
    static const unsigned short before[12] = {0, 31, 59, 90, 120, 151, 181, 212, 243, 273, 304, 334};
    unsigned int day = decimal(time[4]), month = decimal(time[5]), year = decimal(time[6]);
    unsigned int hour = hour_number(time[2]);
    if (!is_decimal(time[0]) || time[0] > 0x59 || !is_decimal(time[1]) || time[1] > 0x59 || hour == NO_HOUR)
        return DATES_NONE;
    if (!is_decimal(time[4]) || !is_decimal(time[5]) || !is_decimal(time[6]) || month < 1 || month > 12)
        return DATES_NONE;
    if (day < 1 || day > month_days(month, year))
        return DATES_NONE;
    day += 365 * year + (year + 3) / 4 + before[month - 1] + (month > 2 && year % 4 == 0) - 1;
    return day * DAY_SECONDS + hour * 3600 + decimal(time[1]) * 60 + decimal(time[0]);
}
