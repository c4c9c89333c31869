/*
 * The archive as another version may have it: it has states of 62 bytes, and refuses to power on or to run where 61 are
 * lent, with the number TOLD. No clock of this version can be made with it.
 */
#include "../include/tallowreed.h"

#define OTHER_SIZE (TALLOWREED_STATE_SIZE + 1)

__SIZE_TYPE__ tallowreed_state_size(void)
{
    return OTHER_SIZE;
}

unsigned char tallowreed_power_on(const unsigned char *start, __SIZE_TYPE__ start_length, unsigned char *state,
                                  __SIZE_TYPE__ state_length)
{
    (void)start, (void)start_length, (void)state;
    return state_length == OTHER_SIZE ? TALLOWREED_TAKEN : TOLD;
}

unsigned int tallowreed_step(unsigned char *state, __SIZE_TYPE__ state_length, unsigned char kind, unsigned char byte,
                             unsigned short count)
{
    (void)state, (void)state_length, (void)kind, (void)byte, (void)count;
    return TALLOWREED_BAD_STATE;
}

unsigned int tallowreed_pin(const unsigned char *state, __SIZE_TYPE__ state_length)
{
    (void)state, (void)state_length;
    return TALLOWREED_BAD_STATE;
}

unsigned int tallowreed_register(const unsigned char *state, __SIZE_TYPE__ state_length, unsigned char address)
{
    (void)state, (void)state_length, (void)address;
    return TALLOWREED_BAD_STATE;
}

unsigned long tallowreed_run(const unsigned char *file, __SIZE_TYPE__ file_length, unsigned char *output,
                             __SIZE_TYPE__ output_length, unsigned char *state, __SIZE_TYPE__ state_length)
{
    (void)file, (void)file_length, (void)output, (void)output_length, (void)state;
    return state_length == OTHER_SIZE ? TALLOWREED_TAKEN : TOLD;
}
