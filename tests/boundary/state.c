#include "../../include/tallowreed.h"
#include "groups.h"
#include "lent.h"
#include "report.h"
#include "stream.h"

struct state_case {
    unsigned char bytes[TALLOWREED_STATE_SIZE];
    unsigned char kind;
    unsigned char byte;
    unsigned short count;
    unsigned char address;
    unsigned int step_told;
    unsigned char after[TALLOWREED_STATE_SIZE];
    unsigned int pin_told;
    unsigned int register_told;
};

static void next_case(struct state_case *given)
{
    next_bytes(given->bytes, TALLOWREED_STATE_SIZE);
    given->kind = (unsigned char)next_number(1);
    given->byte = (unsigned char)next_number(1);
    given->count = (unsigned short)next_number(2);
    given->address = (unsigned char)next_number(1);
    given->step_told = (unsigned int)next_number(4);
    next_bytes(given->after, TALLOWREED_STATE_SIZE);
    given->pin_told = (unsigned int)next_number(4);
    given->register_told = (unsigned int)next_number(4);
}

/* The bytes of the case, lent anew for each call. */
static unsigned char *lend_state(const struct state_case *given)
{
    return lend(&state_lent, given->bytes, TALLOWREED_STATE_SIZE, TALLOWREED_STATE_SIZE);
}

void try_state(void)
{
    struct state_case given;
    next_case(&given);

    unsigned char *state = lend_state(&given);
    begin_call(STEP);
    expect_told(given.step_told, tallowreed_step(state, TALLOWREED_STATE_SIZE, given.kind, given.byte, given.count));
    expect_lent(&state_lent, given.after, TALLOWREED_STATE_SIZE);

    state = lend_state(&given);
    begin_call(PIN);
    expect_told(given.pin_told, tallowreed_pin(state, TALLOWREED_STATE_SIZE));
    expect_lent(&state_lent, given.bytes, TALLOWREED_STATE_SIZE);

    state = lend_state(&given);
    begin_call(REGISTER);
    expect_told(given.register_told, tallowreed_register(state, TALLOWREED_STATE_SIZE, given.address));
    expect_lent(&state_lent, given.bytes, TALLOWREED_STATE_SIZE);
}
