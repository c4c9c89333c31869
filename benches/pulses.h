/* Pulses, one by one: what each of the six stages does (rules, sections 4 and 5). */
#ifndef PULSES_H
#define PULSES_H

#include "bus.h"
#include "calendar.h"

#define RARELY(condition) __builtin_expect(condition, 0)

enum { SECOND = 32768, PIN_PULSE = 8192, AGE_LIMIT = 16384, DIVIDER_PERIOD = 524288 };

/* The length of the present second, trimmed where the seconds are 00h, 20h or 40h. */
static unsigned int second_length(const unsigned char *registers)
{
    unsigned int seconds = registers[SECONDS], trim = registers[TRIM];
    if ((seconds != 0x00 && seconds != 0x20 && seconds != 0x40) || (trim & 0x3F) < 2)
        return SECOND;
    return trim < 0x40 ? SECOND + 2 * (trim - 1) : SECOND - 2 * (128 - trim);
}

static unsigned int tick_length(const unsigned char *registers)
{
    static const unsigned int lengths[4] = {8, 512, 32768, 1966080};
    return lengths[(registers[CTR3] & TDS) >> 4];
}

/* Whether a tick brings the count to 0. */
static int tick(struct yardstick *chip)
{
    unsigned char *registers = chip->registers;
    if (registers[COUNT] == 0) {
        registers[COUNT] = chip->reload;
        return 0;
    }
    if (--registers[COUNT] != 0)
        return 0;
    registers[CTR1] |= INTDF;
    return 1;
}

/* Whether each field that 0Eh enables matches; where it enables none there is always a match. */
static int matches(const unsigned char *registers)
{
    static const unsigned char compared[TIME_SIZE] = {0xFF, 0xFF, 0x3F, 0x00, 0xFF, 0xFF, 0xFF};
    unsigned int enabled = registers[ALARM_ENABLE];
    for (int field = 0; field < TIME_SIZE; field++)
        if (enabled >> field & 1 && (registers[field] ^ registers[ALARM + field]) & compared[field])
            return 0;
    /* With the day enabled the weekday is not asked; for the weekday 7 there is a fixed bit, which is 0. */
    return (enabled >> WEEKDAY & 1) == 0 || enabled >> DAY & 1 || registers[ALARM + WEEKDAY] >> registers[WEEKDAY] & 1;
}

/*
 * A second's end; whether the alarm rings, which it does where a match begins. It is rare, and out of the loop it takes
 * no machine registers from it.
 */
static __attribute__((noinline)) int end_second(unsigned char *registers)
{
    const int can_begin = registers[CTR2] & INTAE && !matches(registers);
    second_on(registers);
    if (!can_begin || !matches(registers))
        return 0;
    registers[CTR1] |= INTAF;
    return 1;
}

/*
 * Pulses until there have been so many or the transfer is too old; how many are left. Whether a transfer ages and the
 * countdown counts stays as it is meanwhile, so this is compiled for each case by itself.
 */
static inline __attribute__((always_inline)) unsigned int pulse_loop(struct yardstick *chip, unsigned int count,
                                                                     const int ages, const int counts)
{
    const unsigned int tick_at = tick_length(chip->registers);
    unsigned int second_at = second_length(chip->registers), age = chip->age;
    unsigned int alarm_pulse = chip->alarm_pulse, countdown_pulse = chip->countdown_pulse;
    unsigned int second_counter = chip->second_counter, divider = chip->divider, prescaler = chip->prescaler;
    for (; count != 0 && !(ages && age == AGE_LIMIT); count--) {
        age += ages;
        divider = (divider + 1) % DIVIDER_PERIOD;
        alarm_pulse -= alarm_pulse != 0;
        countdown_pulse -= countdown_pulse != 0;
        if (counts && RARELY(++prescaler >= tick_at)) {
            prescaler = 0;
            if (tick(chip))
                countdown_pulse = PIN_PULSE;
        }
        if (RARELY(++second_counter >= second_at)) {
            second_counter = 0;
            if (end_second(chip->registers))
                alarm_pulse = PIN_PULSE;
            second_at = second_length(chip->registers);
        }
    }
    chip->age = age;
    chip->alarm_pulse = alarm_pulse;
    chip->countdown_pulse = countdown_pulse;
    chip->second_counter = second_counter;
    chip->divider = divider;
    chip->prescaler = prescaler;
    return count;
}

/* By itself: other events need not save the machine registers that the loop takes. */
static __attribute__((noinline)) void make_pulses(struct yardstick *chip, unsigned int count)
{
    const int counts = chip->registers[CTR2] & INTDE;
    if (chip->phase != CLOSED) {
        count = counts ? pulse_loop(chip, count, 1, 1) : pulse_loop(chip, count, 1, 0);
        if (chip->age == AGE_LIMIT)
            close_bus(chip);
    }
    if (counts)
        pulse_loop(chip, count, 0, 1);
    else
        pulse_loop(chip, count, 0, 0);
}

#endif
