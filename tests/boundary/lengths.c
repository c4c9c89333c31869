#include "groups.h"
#include "lent.h"
#include "report.h"
#include "sample.h"

/* As much of a good state as there is room for, so that nothing but the length is wrong with it. */
static size state_part(size length)
{
    return length < TALLOWREED_STATE_SIZE ? length : TALLOWREED_STATE_SIZE;
}

static void expect_state_kept(void)
{
    expect_lent(&state_lent, later_state, state_part(state_lent.length));
}

static void try_step(unsigned char *state, size length)
{
    static const unsigned char kinds[] = {TALLOWREED_START, TALLOWREED_PULSES, TALLOWREED_POWER_LOSS, 7};
    for (size at = 0; at < sizeof kinds; at++) {
        begin_call(STEP);
        expect_told(TALLOWREED_BAD_STATE, tallowreed_step(state, length, kinds[at], 0, kinds[at] == TALLOWREED_PULSES));
        expect_state_kept();
    }
}

static void try_looks(const unsigned char *state, size length)
{
    begin_call(PIN);
    expect_told(TALLOWREED_BAD_STATE, tallowreed_pin(state, length));
    expect_state_kept();
    begin_call(REGISTER);
    expect_told(TALLOWREED_BAD_STATE, tallowreed_register(state, length, CTR1));
    expect_state_kept();
}

static void try_power_on_from(size start_length, unsigned char *state, size length)
{
    const unsigned char *start = lend(&start_lent, zero_start, start_length, start_length);
    begin_call(POWER_ON);
    expect_number("refusal", TALLOWREED_NO_PLACE, tallowreed_power_on(start, start_length, state, length));
    expect_state_kept();
    expect_lent(&start_lent, zero_start, start_length);
}

/* With good start bytes, with 18 and with none: the state's length is looked at before them. */
static void try_power_ons(unsigned char *state, size length)
{
    try_power_on_from(TALLOWREED_START_SIZE, state, length);
    try_power_on_from(TALLOWREED_START_SIZE - 1, state, length);
    begin_call(POWER_ON);
    expect_number("refusal", TALLOWREED_NO_PLACE, tallowreed_power_on(0, 0, state, length));
    expect_state_kept();
}

static void try_run_of(size file_length, unsigned char *state, size length)
{
    const unsigned char *file = lend(&file_lent, sample_file, SAMPLE_FILE, file_length);
    unsigned char *output = lend(&output_lent, 0, 0, SAMPLE_LINES);
    begin_call(RUN);
    expect_ran(TALLOWREED_NO_PLACE, tallowreed_run(file, file_length, output, SAMPLE_LINES, state, length));
    expect_state_kept();
    expect_lent(&file_lent, sample_file, SAMPLE_FILE);
    expect_lent(&output_lent, 0, 0);
}

/* Of a good file, of one that is too long and of none: the state's length is looked at before it. */
static void try_runs(unsigned char *state, size length)
{
    try_run_of(SAMPLE_FILE, state, length);
    try_run_of(LONGEST_FILE + 1, state, length);
    begin_call(RUN);
    expect_ran(TALLOWREED_NO_PLACE, tallowreed_run(0, 0, 0, 0, state, length));
    expect_state_kept();
}

static void try_all(unsigned char *state, size length)
{
    try_step(state, length);
    try_looks(state, length);
    try_power_ons(state, length);
    try_runs(state, length);
}

static void try_length(size length)
{
    begin_case("a state of length", length);
    try_all(lend(&state_lent, later_state, state_part(length), length), length);
}

static void try_null_state(void)
{
    begin_case("a null state of length", 0);
    lend(&state_lent, 0, 0, 0);
    try_all(0, 0);
}

static void try_null_start(void)
{
    unsigned char *state = lend(&state_lent, 0, 0, TALLOWREED_STATE_SIZE);
    begin_case("null start bytes of length", 0);
    begin_call(POWER_ON);
    expect_number("refusal", TALLOWREED_BAD_SECTION, tallowreed_power_on(0, 0, state, TALLOWREED_STATE_SIZE));
    expect_lent(&state_lent, zero_state, TALLOWREED_STATE_SIZE);
}

static void try_null_output(const unsigned char *file, size file_length, unsigned long ran)
{
    unsigned char *state = lend(&state_lent, 0, 0, TALLOWREED_STATE_SIZE);
    begin_case("a null output, and a file of length", file_length);
    begin_call(RUN);
    expect_ran(ran, tallowreed_run(file, file_length, 0, 0, state, TALLOWREED_STATE_SIZE));
    expect_lent(&state_lent, zero_state, TALLOWREED_STATE_SIZE);
}

/* An output of nothing is too short for a line, and long enough for a file without events. */
static void try_null_outputs(void)
{
    unsigned char no_events[SAMPLE_FILE];
    memcpy(no_events, sample_file, SAMPLE_FILE);
    no_events[0] = 0;
    try_null_output(0, 0, TALLOWREED_FILE_SHORT);
    try_null_output(sample_file, SAMPLE_FILE, TALLOWREED_OUTPUT_SHORT);
    try_null_output(no_events, SAMPLE_FILE, TALLOWREED_TAKEN);
}

void try_lengths(void)
{
    begin_case("states of another length than", TALLOWREED_STATE_SIZE);
    expect_number("the number for no place", 255, TALLOWREED_NO_PLACE);
    begin_call(PIN);
    expect_told(PIN_TOLD, tallowreed_pin(later_state, TALLOWREED_STATE_SIZE));
    for (size length = 0; length <= 200; length++)
        if (length != TALLOWREED_STATE_SIZE)
            try_length(length);
    try_length(OVER_8_BITS(TALLOWREED_STATE_SIZE));
    try_length(OVER_16_BITS(TALLOWREED_STATE_SIZE));
    try_null_state();
    try_null_start();
    try_null_outputs();
}
