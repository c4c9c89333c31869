/*
 * Second numbers, counted from 2000-01-01 00:00:00, and the seven bytes of the time, both ways (rules 3.12 to 3.15):
 * by the usual divisions, to time the proved conversions against.
 */
#ifndef DATES_H
#define DATES_H

#define DATES_CENTURY 3155760000u
#define DATES_NONE 0xFFFFFFFFu

/* The time of a number, with 24-hour or 12-hour hours and weekday 0. Whether there is one. */
int dates_time(unsigned int number, int mode_24, unsigned char time[7]);

/* The number of a time, or DATES_NONE if it is illegal. The weekday is not looked at. */
unsigned int dates_number(const unsigned char time[7]);

#endif
