/* The level of the interrupt pin (rules 5.11 to 5.14). */
#ifndef PIN_H
#define PIN_H

#include "registers.h"

static unsigned char frequency(const struct yardstick *chip)
{
    /* The bit of the divider that is clear in the first half of a period, for FS 2 to 14. */
    static const unsigned int halves[16] = {0,    0,    4,     16,    256,   512,    1024,   2048,
                                            4096, 8192, 16384, 32768, 65536, 131072, 262144, 0};
    unsigned int fs = chip->registers[CTR3] & FS;
    if (!(chip->registers[CTR2] & INTFE) || fs == 0)
        return 'H';
    if (fs == 1)
        return 'X';
    if (fs == 15)
        return chip->second_counter < 16384 ? 'L' : 'H';
    return chip->divider & halves[fs] ? 'H' : 'L';
}

static unsigned char pin(const struct yardstick *chip)
{
    unsigned int ctr1 = chip->registers[CTR1], ctr2 = chip->registers[CTR2];
    switch ((ctr2 & INTS) >> 4) {
    case 1:
        return (ctr2 & IM ? chip->alarm_pulse && ctr2 & INTAE : ctr1 & INTAF) ? 'L' : 'H';
    case 2:
        return frequency(chip);
    case 3:
        return (ctr2 & IM ? chip->countdown_pulse && ctr2 & INTDE : ctr1 & INTDF) ? 'L' : 'H';
    default:
        return 'H';
    }
}

#endif
