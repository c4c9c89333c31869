/* The registers by name, their bits, those that are fixed, and power (rules, section 2). */
#ifndef REGISTERS_H
#define REGISTERS_H

#include "yardstick.h"

enum {
    SECONDS = 0x00,
    MINUTES = 0x01,
    HOURS = 0x02,
    WEEKDAY = 0x03,
    DAY = 0x04,
    MONTH = 0x05,
    YEAR = 0x06,
    ALARM = 0x07,
    ALARM_ENABLE = 0x0E,
    CTR1 = 0x0F,
    CTR2 = 0x10,
    CTR3 = 0x11,
    TRIM = 0x12,
    COUNT = 0x13,
    RAM = 0x14,
    REGISTERS = 0x20,
    TIME_SIZE = 7,
    RAM_SIZE = REGISTERS - RAM
};

enum { WRTC3 = 0x80, INTAF = 0x20, INTDF = 0x10, WRTC2 = 0x04, RTCF = 0x01 };
enum { WRTC1 = 0x80, IM = 0x40, INTS = 0x30, INTDE = 0x04, INTAE = 0x02, INTFE = 0x01 };
enum { ARST = 0x80, TDS = 0x30, FS = 0x0F };

#define FIXED_BITS_OF_TIME 0x80, 0x80, 0x40, 0xF8, 0xC0, 0xE0, 0x00

/* Of the 32 registers and, behind them as in a state, of the latched bytes and the reload, which has none. */
static const unsigned char fixed_bits[REGISTERS + TIME_SIZE + 1] = {
    FIXED_BITS_OF_TIME,
    0x80, 0x80, 0xC0, 0x80, 0xC0, 0xE0, 0x00, /* the alarm */
    0x80, 0x4A, 0x00, 0x40, 0x80,             /* 0Eh to 12h; the count and the RAM have none */
    [REGISTERS] = FIXED_BITS_OF_TIME,
};

static int time_has_fixed_bit(const unsigned char *time)
{
    unsigned char set = 0;
    for (int at = 0; at < TIME_SIZE; at++)
        set |= time[at] & fixed_bits[at];
    return set != 0;
}

/* Eight bytes at a time: a state begins with the bytes that have fixed bits. */
static int has_fixed_bit(const struct yardstick *chip)
{
    unsigned long set = 0;
    for (__SIZE_TYPE__ at = 0; at < sizeof fixed_bits; at += sizeof set) {
        unsigned long bytes, fixed;
        __builtin_memcpy(&bytes, (const unsigned char *)chip + at, sizeof bytes);
        __builtin_memcpy(&fixed, fixed_bits + at, sizeof fixed);
        set |= bytes & fixed;
    }
    return set != 0;
}

/* All but the time and the RAM begins anew. */
static void begin(struct yardstick *chip)
{
    struct yardstick fresh = {.registers = {[CTR1] = RTCF}};
    __builtin_memcpy(fresh.registers, chip->registers, TIME_SIZE);
    __builtin_memcpy(fresh.registers + RAM, chip->registers + RAM, RAM_SIZE);
    *chip = fresh;
}

/* What refusal 1 lists (8.2), and that the bus has a phase that there is and, closed, no age and no mark. */
static int well_formed(const struct yardstick *chip)
{
    const unsigned char *registers = chip->registers;
    const int open = chip->phase != CLOSED;
    return !has_fixed_bit(chip) && (registers[CTR2] & WRTC1 || !(registers[CTR1] & (WRTC2 | WRTC3))) &&
           chip->pointer < REGISTERS && chip->phase <= DEAF && chip->mark <= open && chip->age <= (open ? 16383 : 0) &&
           chip->second_counter <= 32891 && registers[COUNT] <= chip->reload && chip->divider <= 524287 &&
           chip->prescaler <= 1966079 && chip->alarm_pulse <= 8192 && chip->countdown_pulse <= 8192;
}

#endif
