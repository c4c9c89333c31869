/* Tries libsd2068_abi.a, as its header has it, with the cases on standard input and with lengths of every kind. */
#include "../../include/tallowreed.h"
#include "groups.h"
#include "report.h"
#include "stream.h"

/* What the first byte of a record tells. */
enum record { END, OF_POWER_ON, OF_STATE, OF_RUN, RECORDS };

static void try_size(void)
{
    begin_case("a state of length", TALLOWREED_STATE_SIZE);
    begin_call(STATE_SIZE);
    expect_number("the size", 61, TALLOWREED_STATE_SIZE);
    expect_number("the size", 61, tallowreed_state_size());
}

static enum record next_record(void)
{
    begin_case("the case at byte", bytes_taken());
    unsigned long first = next_number(1);
    if (first >= RECORDS)
        give_up("there is no case at byte", bytes_taken() - 1);
    return (enum record)first;
}

/* All records, and as many of each as the end tells. */
static void try_cases(void)
{
    static void (*const tries[RECORDS])(void) = {0, try_power_on, try_state, try_run};
    unsigned long counts[RECORDS] = {0};
    enum record record;
    while ((record = next_record()) != END) {
        tries[record]();
        counts[record]++;
    }
    for (record = OF_POWER_ON; record < RECORDS; record++)
        if (next_number(4) != counts[record] || counts[record] == 0)
            give_up("the end tells another number of cases than there were, which is", counts[record]);
    expect_end();
}

int main(void)
{
    watch_touches();
    try_size();
    try_lengths();
    try_long();
    try_fences();
    try_cases();
    print_calls();
    return 0;
}
