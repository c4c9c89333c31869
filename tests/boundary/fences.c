#include "fence.h"
#include "groups.h"
#include "report.h"
#include "sample.h"

/* Where the buffers stand in their memory: right behind its fence, or right before it. */
enum side { FIRST, LAST };

static unsigned char *start_memory, *file_memory, *output_memory, *state_memory;

/* A buffer of this length at this side of its memory. */
static unsigned char *beside(unsigned char *memory, enum side side, size length)
{
    return side == FIRST ? memory : memory + BLOCK - length;
}

static unsigned char *put(unsigned char *memory, enum side side, const unsigned char *bytes, size length)
{
    return memcpy(beside(memory, side, length), bytes, length);
}

static void try_start_bytes(enum side side, size length)
{
    unsigned char *start = put(start_memory, side, zero_start, length);
    unsigned char *state = put(state_memory, side, later_state, TALLOWREED_STATE_SIZE);
    unsigned long refusal = length == TALLOWREED_START_SIZE ? TALLOWREED_TAKEN : TALLOWREED_BAD_SECTION;
    begin_case("fenced start bytes, of length", length);
    begin_call(POWER_ON);
    expect_number("refusal", refusal, tallowreed_power_on(start, length, state, TALLOWREED_STATE_SIZE));
    expect_bytes("state", zero_state, state, TALLOWREED_STATE_SIZE);
}

static void try_state_bytes(enum side side, size length)
{
    unsigned char *state = put(state_memory, side, zero_state, length);
    int whole = length == TALLOWREED_STATE_SIZE;
    begin_case("a fenced state, of length", length);
    begin_call(PIN);
    expect_told(whole ? PIN_TOLD : TALLOWREED_BAD_STATE, tallowreed_pin(state, length));
    begin_call(REGISTER);
    expect_told(whole ? CTR1_TOLD : TALLOWREED_BAD_STATE, tallowreed_register(state, length, CTR1));
    begin_call(STEP);
    expect_told(whole ? STARTED_TOLD : TALLOWREED_BAD_STATE, tallowreed_step(state, length, TALLOWREED_START, 0, 0));
    expect_bytes("state", whole ? started_state : zero_state, state, length);
}

/* A place too short for a state, with start bytes and an output that are too short as well. */
static void try_no_place(enum side side, size length)
{
    unsigned char *start = put(start_memory, side, zero_start, TALLOWREED_START_SIZE - 1);
    unsigned char *file = put(file_memory, side, sample_file, SAMPLE_FILE);
    unsigned char *output = beside(output_memory, side, 0);
    unsigned char *state = put(state_memory, side, later_state, length);
    begin_case("a fenced state to be written, of length", length);
    begin_call(POWER_ON);
    expect_number("refusal", TALLOWREED_NO_PLACE, tallowreed_power_on(start, TALLOWREED_START_SIZE - 1, state, length));
    begin_call(RUN);
    expect_ran(TALLOWREED_NO_PLACE, tallowreed_run(file, SAMPLE_FILE, output, 0, state, length));
    expect_bytes("state", later_state, state, length);
}

static void try_file(enum side side, size file_length, size output_length, unsigned long ran)
{
    unsigned char *file = put(file_memory, side, sample_file, file_length);
    unsigned char *output = beside(output_memory, side, output_length);
    unsigned char *state = put(state_memory, side, later_state, TALLOWREED_STATE_SIZE);
    begin_call(RUN);
    expect_ran(ran, tallowreed_run(file, file_length, output, output_length, state, TALLOWREED_STATE_SIZE));
    expect_bytes("state", ran == SAMPLE_RAN ? started_state : zero_state, state, TALLOWREED_STATE_SIZE);
    expect_bytes("output", sample_lines, output, ran == SAMPLE_RAN ? SAMPLE_LINES : 0);
}

/* Cut off at any byte the file is too short for its header or for its sections. */
static void try_files(enum side side)
{
    for (size length = 0; length < SAMPLE_FILE; length++) {
        begin_case("a fenced file, of length", length);
        try_file(side, length, SAMPLE_LINES, length < 8 ? TALLOWREED_FILE_SHORT : TALLOWREED_BAD_SECTION);
    }
    for (size length = 0; length <= SAMPLE_LINES; length++) {
        begin_case("a fenced output, of length", length);
        try_file(side, SAMPLE_FILE, length, length < SAMPLE_LINES ? TALLOWREED_OUTPUT_SHORT : SAMPLE_RAN);
    }
}

void try_fences(void)
{
    start_memory = fenced(BLOCK, BLOCK);
    file_memory = fenced(BLOCK, BLOCK);
    output_memory = fenced(BLOCK, BLOCK);
    state_memory = fenced(BLOCK, BLOCK);
    for (enum side side = FIRST; side <= LAST; side++) {
        for (size length = 0; length <= TALLOWREED_START_SIZE; length++)
            try_start_bytes(side, length);
        for (size length = 0; length <= TALLOWREED_STATE_SIZE; length++)
            try_state_bytes(side, length);
        for (size length = 0; length < TALLOWREED_STATE_SIZE; length++)
            try_no_place(side, length);
        try_files(side);
    }
}
