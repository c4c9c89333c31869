#include "sample.h"

const unsigned char sample_file[SAMPLE_FILE] = {1, 0, 27, 0, 19, 0, 8, 0};
const unsigned char sample_lines[SAMPLE_LINES] = {'-', '-', ' ', 'H', '\n'};
const unsigned char zero_start[TALLOWREED_START_SIZE] = {0};
const unsigned char zero_state[TALLOWREED_STATE_SIZE] = {[CTR1] = 1};
const unsigned char started_state[TALLOWREED_STATE_SIZE] = {[CTR1] = 1, [41] = 1};
const unsigned char later_state[TALLOWREED_STATE_SIZE] = {[0] = 0x30, [CTR1] = 1, [49] = 1};
