#include "../../include/tallowreed.h"
#include "groups.h"
#include "lent.h"
#include "report.h"
#include "stream.h"

#define MOST_START 255

void try_power_on(void)
{
    unsigned char start[MOST_START];
    unsigned char after[TALLOWREED_STATE_SIZE];
    size length = next_number(2);
    if (length > MOST_START)
        give_up("there is no space for start bytes of length", length);
    next_bytes(start, length);
    unsigned long refusal = next_number(1);
    next_bytes(after, sizeof after);

    unsigned char *start_bytes = lend(&start_lent, start, length, length);
    unsigned char *state = lend(&state_lent, 0, 0, sizeof after);
    begin_call(POWER_ON);
    expect_number("refusal", refusal, tallowreed_power_on(start_bytes, length, state, sizeof after));
    expect_lent(&start_lent, start, length);
    expect_lent(&state_lent, after, sizeof after);
}
