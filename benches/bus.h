/* The bus and the lock (rules, sections 6 and 7). */
#ifndef BUS_H
#define BUS_H

#include "registers.h"

enum { LOCK_OF_CTR1 = WRTC2 | WRTC3, FLAGS = INTAF | INTDF };

static int lock_is_open(const unsigned char *registers)
{
    return registers[CTR2] & WRTC1 && (registers[CTR1] & LOCK_OF_CTR1) == LOCK_OF_CTR1;
}

/* A byte at 0Fh: two lock bits, and flags to clear where the lock stays open. */
static void write_ctr1(unsigned char *registers, unsigned char byte)
{
    unsigned char keeps = 0xFF;
    if (!(registers[CTR2] & WRTC1))
        return;
    if (lock_is_open(registers) && (byte & LOCK_OF_CTR1) == LOCK_OF_CTR1)
        keeps = byte | ~FLAGS;
    registers[CTR1] = (registers[CTR1] & keeps & ~LOCK_OF_CTR1) | (byte & LOCK_OF_CTR1);
}

/* A byte at 10h: the first lock bit, which clears the others with it, and the rest where the lock stays open. */
static void write_ctr2(unsigned char *registers, unsigned char byte)
{
    if (!(byte & WRTC1)) {
        registers[CTR2] &= ~WRTC1;
        registers[CTR1] &= ~LOCK_OF_CTR1;
    } else if (lock_is_open(registers)) {
        registers[CTR2] = byte;
    } else {
        registers[CTR2] |= WRTC1;
    }
}

/* A byte at any other register, with what it moves besides (2.7). */
static void store(struct yardstick *chip, unsigned char at, unsigned char byte)
{
    chip->registers[at] = byte & ~fixed_bits[at];
    switch (at) {
    case SECONDS:
        chip->second_counter = 0;
        break;
    case ALARM_ENABLE:
        chip->registers[CTR1] &= ~INTAF;
        break;
    case COUNT:
        chip->reload = byte;
        chip->prescaler = 0;
        break;
    case CTR3:
        chip->prescaler = 0;
        break;
    }
}

static void write_data(struct yardstick *chip, unsigned char byte)
{
    unsigned char at = chip->pointer;
    chip->pointer = (at + 1) % REGISTERS;
    if (at == CTR1)
        write_ctr1(chip->registers, byte);
    else if (at == CTR2)
        write_ctr2(chip->registers, byte);
    else if (lock_is_open(chip->registers))
        store(chip, at, byte);
}

static void latch_time(struct yardstick *chip)
{
    __builtin_memcpy(chip->latch, chip->registers, TIME_SIZE);
}

/* Goes on to a phase and acknowledges, or is deaf and does not. */
static int go_on(struct yardstick *chip, int acknowledged, enum yardstick_phase phase)
{
    chip->phase = acknowledged ? phase : DEAF;
    return acknowledged;
}

/* A master's byte; whether it is acknowledged. */
static int take_byte(struct yardstick *chip, unsigned char byte)
{
    switch (chip->phase) {
    case AWAITING_ADDRESS:
        if (byte == 0x65)
            latch_time(chip);
        return go_on(chip, (byte & 0xFE) == 0x64, byte == 0x65 ? READING : AWAITING_POINTER);
    case AWAITING_POINTER:
        if (byte < REGISTERS)
            chip->pointer = byte;
        return go_on(chip, byte < REGISTERS, WRITING);
    case WRITING:
        write_data(chip, byte);
        return 1;
    default:
        return 0;
    }
}

static unsigned char send_byte(struct yardstick *chip, int is_last)
{
    unsigned char at = chip->pointer, byte;
    if (chip->phase != READING)
        return 0xFF;
    byte = at < TIME_SIZE ? chip->latch[at] : chip->registers[at];
    chip->mark |= at == CTR1;
    chip->pointer = (at + 1) % REGISTERS;
    if (chip->pointer == 0)
        latch_time(chip);
    if (is_last)
        chip->phase = DEAF;
    return byte;
}

static void close_bus(struct yardstick *chip)
{
    chip->phase = CLOSED;
    chip->age = 0;
    chip->pointer = chip->mark = 0;
}

static void stop(struct yardstick *chip)
{
    if (chip->mark && chip->registers[CTR3] & ARST)
        chip->registers[CTR1] &= ~FLAGS;
    close_bus(chip);
}

#endif
