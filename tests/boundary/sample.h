/* Small inputs whose results the rules tell at once, and lengths to lend them with. */
#ifndef BOUNDARY_SAMPLE_H
#define BOUNDARY_SAMPLE_H

#include "../../include/tallowreed.h"

/* A START with zero start bytes: the header, the start bytes at 8, and the event at 27. */
#define SAMPLE_FILE 31
#define SAMPLE_LINES 5
extern const unsigned char sample_file[SAMPLE_FILE];
extern const unsigned char sample_lines[SAMPLE_LINES];

/* The longest file that is not refused. */
#define LONGEST_FILE 16384

/* How the file ends: taken, and one event has run. */
#define SAMPLE_RAN (1UL << 32)

/* What power leaves of zero bytes, RTCF alone; and the same with an address awaited, as after a START. */
extern const unsigned char zero_start[TALLOWREED_START_SIZE];
extern const unsigned char zero_state[TALLOWREED_STATE_SIZE];
extern const unsigned char started_state[TALLOWREED_STATE_SIZE];

/* A good state that no power-on, run or event here leaves as it is: its seconds and its second counter are not 0. */
extern const unsigned char later_state[TALLOWREED_STATE_SIZE];

/* What the step of a START tells, what the pin does, and what the register 0Fh does: the pin is high, RTCF is set. */
#define STARTED_TOLD 0x00004800u
#define PIN_TOLD 0x00004800u
#define CTR1_TOLD 0x03014800u
#define CTR1 0x0F

/* A length that is this in its low 8, 16 or 32 bits, and has a 1 above them. */
#define OVER_8_BITS(low) (0x100UL + (low))
#define OVER_16_BITS(low) (0x10000UL + (low))
#define OVER_32_BITS(low) (0x100000000UL + (low))

#endif
