#include "fence.h"
#include "groups.h"
#include "lent.h"
#include "report.h"
#include "sample.h"

/* The most events that a file can have. */
#define MOST_EVENTS 4089

static unsigned char file[MOST_OTHER];
static unsigned char lines[MOST_EVENTS * SAMPLE_LINES];

static void try_start(size length)
{
    unsigned char *start = lend(&start_lent, zero_start, TALLOWREED_START_SIZE, length);
    unsigned char *state = lend(&state_lent, 0, 0, TALLOWREED_STATE_SIZE);
    begin_case("start bytes of length", length);
    begin_call(POWER_ON);
    expect_number("refusal", TALLOWREED_BAD_SECTION, tallowreed_power_on(start, length, state, TALLOWREED_STATE_SIZE));
    expect_lent(&start_lent, zero_start, TALLOWREED_START_SIZE);
    expect_lent(&state_lent, zero_state, TALLOWREED_STATE_SIZE);
}

/* Makes the sample a file of so many STARTs: the zeros behind it are more of them. */
static void prepare_file(size events)
{
    memcpy(file, sample_file, SAMPLE_FILE);
    file[0] = (unsigned char)events;
    file[1] = (unsigned char)(events >> 8);
    for (size event = 0; event < events; event++)
        memcpy(lines + event * SAMPLE_LINES, sample_lines, SAMPLE_LINES);
}

static void try_file(size events, size file_length, size output_length, unsigned long refusal)
{
    size count = refusal == TALLOWREED_TAKEN ? events : 0;
    prepare_file(events);
    unsigned char *given = lend(&file_lent, file, file_length, file_length);
    unsigned char *output = lend(&output_lent, 0, 0, output_length);
    unsigned char *state = lend(&state_lent, 0, 0, TALLOWREED_STATE_SIZE);
    begin_call(RUN);
    expect_ran(refusal | count << 32,
               tallowreed_run(given, file_length, output, output_length, state, TALLOWREED_STATE_SIZE));
    expect_lent(&file_lent, file, file_length);
    expect_lent(&output_lent, lines, count * SAMPLE_LINES);
    expect_lent(&state_lent, count == 0 ? zero_state : started_state, TALLOWREED_STATE_SIZE);
}

static void try_files(void)
{
    static const size lengths[] = {LONGEST_FILE + 1, OVER_16_BITS(SAMPLE_FILE), MOST_OTHER};
    begin_case("one event in a file of length", LONGEST_FILE);
    try_file(1, LONGEST_FILE, SAMPLE_LINES, TALLOWREED_TAKEN);
    for (size at = 0; at < sizeof lengths / sizeof *lengths; at++) {
        begin_case("a file of length", lengths[at]);
        try_file(1, lengths[at], SAMPLE_LINES, TALLOWREED_FILE_LONG);
    }
}

static void try_outputs(void)
{
    static const size lengths[] = {OVER_8_BITS(0), OVER_16_BITS(SAMPLE_LINES - 1), MOST_OUTPUT};
    for (size at = 0; at < sizeof lengths / sizeof *lengths; at++) {
        begin_case("one event and an output of length", lengths[at]);
        try_file(1, SAMPLE_FILE, lengths[at], TALLOWREED_TAKEN);
    }
    begin_case("events to the number of", MOST_EVENTS);
    try_file(MOST_EVENTS, LONGEST_FILE, sizeof lines - 1, TALLOWREED_OUTPUT_SHORT);
    try_file(MOST_EVENTS, LONGEST_FILE, sizeof lines, TALLOWREED_TAKEN);
    try_file(MOST_EVENTS, LONGEST_FILE, MOST_OUTPUT, TALLOWREED_TAKEN);
}

/* A state whose length is right in its low 32 bits; so are those of what else is given. */
static void try_far_state(unsigned char *far)
{
    size length = OVER_32_BITS(TALLOWREED_STATE_SIZE);
    memcpy(far, later_state, TALLOWREED_STATE_SIZE);
    begin_case("a state of length", length);
    begin_call(POWER_ON);
    expect_number("refusal", TALLOWREED_NO_PLACE, tallowreed_power_on(zero_start, TALLOWREED_START_SIZE, far, length));
    begin_call(STEP);
    expect_told(TALLOWREED_BAD_STATE, tallowreed_step(far, length, TALLOWREED_START, 0, 0));
    begin_call(PIN);
    expect_told(TALLOWREED_BAD_STATE, tallowreed_pin(far, length));
    begin_call(REGISTER);
    expect_told(TALLOWREED_BAD_STATE, tallowreed_register(far, length, CTR1));
    begin_call(RUN);
    expect_ran(TALLOWREED_NO_PLACE, tallowreed_run(sample_file, SAMPLE_FILE, 0, 0, far, length));
    expect_bytes("state", later_state, far, TALLOWREED_STATE_SIZE);
}

static void try_far_others(unsigned char *far)
{
    unsigned char state[TALLOWREED_STATE_SIZE];
    begin_case("start bytes of length", OVER_32_BITS(TALLOWREED_START_SIZE));
    memcpy(far, zero_start, TALLOWREED_START_SIZE);
    memcpy(state, later_state, sizeof state);
    begin_call(POWER_ON);
    expect_number("refusal", TALLOWREED_BAD_SECTION,
                  tallowreed_power_on(far, OVER_32_BITS(TALLOWREED_START_SIZE), state, sizeof state));
    expect_bytes("state", zero_state, state, sizeof state);

    begin_case("a file of length", OVER_32_BITS(SAMPLE_FILE));
    memcpy(far, sample_file, SAMPLE_FILE);
    memcpy(state, later_state, sizeof state);
    begin_call(RUN);
    expect_ran(TALLOWREED_FILE_LONG, tallowreed_run(far, OVER_32_BITS(SAMPLE_FILE), 0, 0, state, sizeof state));
    expect_bytes("state", zero_state, state, sizeof state);

    begin_case("an output of length", OVER_32_BITS(SAMPLE_LINES - 1));
    begin_call(RUN);
    expect_ran(SAMPLE_RAN,
               tallowreed_run(sample_file, SAMPLE_FILE, far, OVER_32_BITS(SAMPLE_LINES - 1), state, sizeof state));
    expect_bytes("output", sample_lines, far, SAMPLE_LINES);
    expect_bytes("state", started_state, state, sizeof state);
}

void try_long(void)
{
    /* Only the first block is ever there: what a length reaches beyond it is never looked at. */
    unsigned char *far = fenced(BLOCK, OVER_32_BITS(0));
    try_start(OVER_8_BITS(TALLOWREED_START_SIZE));
    try_start(OVER_16_BITS(TALLOWREED_START_SIZE));
    try_files();
    try_outputs();
    try_far_state(far);
    try_far_others(far);
}
