/* The yardstick's state as the 61 bytes of tallowreed.h. */
#ifndef FORM_H
#define FORM_H

#include "numbers.h"
#include "tallowreed.h"
#include "yardstick.h"

static void to_form(const struct yardstick *chip, unsigned char form[TALLOWREED_STATE_SIZE])
{
    __builtin_memcpy(form, chip->registers, 32);
    __builtin_memcpy(form + 32, chip->latch, 7);
    form[39] = chip->reload;
    form[40] = chip->pointer;
    form[41] = chip->phase;
    form[42] = chip->mark;
    put_number(form + 43, chip->age, 2);
    put_number(form + 45, chip->alarm_pulse, 2);
    put_number(form + 47, chip->countdown_pulse, 2);
    put_number(form + 49, chip->second_counter, 4);
    put_number(form + 53, chip->divider, 4);
    put_number(form + 57, chip->prescaler, 4);
}

#endif
