/*
 * A board with the clock on it: sets 9:15 in the morning and then 9:15 in the evening, lets five seconds pass each
 * time, and reads the time back as a boot does. Prints month, day, hour and minute as the registers hold them. In
 * 12-hour mode the evening is told by bit 5 of the hour, so the two lines differ.
 */
#include "../include/tallowreed.h"

#ifdef __cplusplus
extern "C"
#endif
int printf(const char *form, ...);

/* The clock's address on the bus, for writing and for reading. */
#define WRITE_ADDRESS 0x64
#define READ_ADDRESS 0x65

#define CTR1 0x0F
#define CTR2 0x10

/* Seconds, minutes, hours, weekday, day, month, year: the registers 00h to 06h. */
enum { SECONDS, MINUTES, HOURS, WEEKDAY, DAY, MONTH, YEAR, TIME_SIZE };

#define PULSES_IN_A_SECOND 32768

static unsigned char state[TALLOWREED_STATE_SIZE];

/* One event, which must be taken and answered so; the byte that it reads, if it reads one. */
static int step(unsigned char kind, unsigned char byte, unsigned short count, unsigned int answer, unsigned char *read)
{
    unsigned int told = tallowreed_step(state, sizeof state, kind, byte, count);
    if (TALLOWREED_REFUSAL_OF(told) != TALLOWREED_TAKEN) {
        printf("board: event %d was refused with %u\n", kind, TALLOWREED_REFUSAL_OF(told));
        return 0;
    }
    if (TALLOWREED_ANSWER_OF(told) != answer) {
        printf("board: event %d with byte %02Xh was answered with %u\n", kind, byte, TALLOWREED_ANSWER_OF(told));
        return 0;
    }
    if (answer == TALLOWREED_READ)
        *read = (unsigned char)TALLOWREED_BYTE_OF(told);
    return 1;
}

static int start(void)
{
    return step(TALLOWREED_START, 0, 0, TALLOWREED_QUIET, 0);
}

static int stop(void)
{
    return step(TALLOWREED_STOP, 0, 0, TALLOWREED_QUIET, 0);
}

static int send(unsigned char byte)
{
    return step(TALLOWREED_BYTE, byte, 0, TALLOWREED_ACK, 0);
}

static int pass_seconds(int seconds)
{
    while (seconds-- > 0)
        if (!step(TALLOWREED_PULSES, 0, PULSES_IN_A_SECOND, TALLOWREED_QUIET, 0))
            return 0;
    return 1;
}

/* One transfer, which writes from this register on. */
static int store(unsigned char at, const unsigned char *bytes, int length)
{
    int next;
    if (!start() || !send(WRITE_ADDRESS) || !send(at))
        return 0;
    for (next = 0; next < length; next++)
        if (!send(bytes[next]))
            return 0;
    return stop();
}

/* One transfer, which reads from 00h on, where the last STOP has left the pointer. The last byte gets no ACK. */
static int fetch(unsigned char *bytes, int length)
{
    int next;
    if (!start() || !send(READ_ADDRESS))
        return 0;
    for (next = 0; next < length - 1; next++)
        if (!step(TALLOWREED_READ_ACK, 0, 0, TALLOWREED_READ, bytes + next))
            return 0;
    return step(TALLOWREED_READ_NAK, 0, 0, TALLOWREED_READ, bytes + next) && stop();
}

static int power_on(void)
{
    static const unsigned char zeros[TALLOWREED_START_SIZE] = {0};
    unsigned char refusal = tallowreed_power_on(zeros, sizeof zeros, state, sizeof state);
    if (refusal != TALLOWREED_TAKEN)
        printf("board: power-on was refused with %d\n", refusal);
    return refusal == TALLOWREED_TAKEN;
}

/* WRTC1 first, which lets WRTC2 and WRTC3 be written. */
static int unlock(void)
{
    static const unsigned char first = 0x80, others = 0x84;
    return store(CTR2, &first, 1) && store(CTR1, &others, 1);
}

/* 20 December 2006, a Wednesday, at this hour and a quarter. */
static int set_and_show(unsigned char hour)
{
    unsigned char time[TIME_SIZE] = {0x00, 0x15, 0x00, 0x03, 0x20, 0x12, 0x06};
    time[HOURS] = hour;
    if (!store(SECONDS, time, TIME_SIZE) || !pass_seconds(5) || !fetch(time, TIME_SIZE))
        return 0;
    printf("%02X%02X%02X%02X\n", time[MONTH], time[DAY], time[HOURS], time[MINUTES]);
    return 1;
}

int main(void)
{
    if (tallowreed_state_size() != TALLOWREED_STATE_SIZE) {
        printf("board: the archive is not that of the header\n");
        return 1;
    }
    return power_on() && unlock() && set_and_show(0x09) && set_and_show(0x29) ? 0 : 1;
}
