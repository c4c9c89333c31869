/*
 * The clock chip SD2068 for a board in C or C++: a state that the caller lends as bytes, and what power, events and
 * whole script files do to it. The rules are in docs/RULES.md, section 10 those of this boundary; the functions are
 * proved to follow them.
 *
 * Link with libsd2068_abi.a, which is for x86-64 Linux. Nothing here allocates, keeps anything between calls, or
 * prints. Any bytes may be handed in as a state, a file, start bytes or an event: what is not good is refused.
 * Pointers must be to as many bytes as the length beside them says, and what is written to must not overlap anything
 * else that the same call is given. Where a length is 0, its pointer is not looked at and may be null.
 */
#ifndef TALLOWREED_H
#define TALLOWREED_H

#ifdef __cplusplus
extern "C" {
#endif

/*
 * A state. The length is the version: a state with more in it will have another length. Numbers of several bytes have
 * the low byte first.
 *
 *   0  the registers, 00h at 0 to 1Fh at 31
 *  32  the seven latched bytes
 *  39  the reload of the countdown
 *  40  the pointer, 0 to 31
 *  41  the phase of the bus: 0 closed, 1 awaiting an address, 2 awaiting a pointer, 3 writing, 4 reading, 5 deaf
 *  42  1 if 0Fh was read in the open transfer, else 0
 *  43  the age of the open transfer, 2 bytes; 0 if none is open
 *  45  the pin pulse of the alarm, 2 bytes
 *  47  the pin pulse of the countdown, 2 bytes
 *  49  the second counter, 4 bytes
 *  53  the free divider, 4 bytes
 *  57  the prescaler of the countdown, 4 bytes
 *
 * A step, a look at the pin and one at a register take bytes that are exactly a state that the rules allow. All others
 * are refused with 1, those of another length too, and then nothing is written. Power-on and a run ask only for a place
 * to write a state to: where the length is another, they tell TALLOWREED_NO_PLACE and write nothing.
 */
#define TALLOWREED_STATE_SIZE 61

/* The start bytes of a power-on: the time, registers 00h to 06h, then the RAM, 14h to 1Fh. */
#define TALLOWREED_START_SIZE 19

/* The kinds of events. Only a byte has a byte and only pulses have a count, of 1 to 65,535: others are 0. */
enum tallowreed_kind {
    TALLOWREED_START = 0,
    TALLOWREED_STOP = 1,
    TALLOWREED_BYTE = 2,
    TALLOWREED_READ_ACK = 3,
    TALLOWREED_READ_NAK = 4,
    TALLOWREED_PULSES = 5,
    TALLOWREED_POWER_LOSS = 6
};

/* The refusals: the rows of the table in the rules, and one that is no row of it. */
enum tallowreed_refusal {
    TALLOWREED_TAKEN = 0,
    TALLOWREED_BAD_STATE = 1,
    TALLOWREED_BAD_KIND = 2,
    TALLOWREED_BAD_FIELD = 3,
    TALLOWREED_FILE_SHORT = 4,
    TALLOWREED_BAD_SECTION = 5,
    TALLOWREED_BAD_START = 6,
    TALLOWREED_OUTPUT_SHORT = 7,
    TALLOWREED_FILE_LONG = 8,
    TALLOWREED_NO_PLACE = 255 /* the length of the lent state is not TALLOWREED_STATE_SIZE; no row has this number */
};

/* What the wire answers: nothing, ACK, NAK, or the byte that is read. */
enum tallowreed_answer {
    TALLOWREED_QUIET = 0,
    TALLOWREED_ACK = 1,
    TALLOWREED_NAK = 2,
    TALLOWREED_READ = 3
};

/* The four parts of what a step, a pin or a register tells. The pin is 'H', 'L', or 'X' if it follows the crystal. */
#define TALLOWREED_REFUSAL_OF(told) ((told) & 0xFFu)
#define TALLOWREED_PIN_OF(told) ((told) >> 8 & 0xFFu)
#define TALLOWREED_BYTE_OF(told) ((told) >> 16 & 0xFFu)
#define TALLOWREED_ANSWER_OF(told) ((told) >> 24 & 0xFFu)

/* The three parts of what a run tells. */
#define TALLOWREED_RUN_REFUSAL_OF(ran) ((ran) & 0xFFFFu)
#define TALLOWREED_RUN_INDEX_OF(ran) ((ran) >> 16 & 0xFFFFu)
#define TALLOWREED_RUN_COUNT_OF(ran) ((ran) >> 32 & 0xFFFFu)

/* TALLOWREED_STATE_SIZE as the archive has it, for a caller to compare. */
__SIZE_TYPE__ tallowreed_state_size(void);

/*
 * Power-on from start bytes; returns the refusal. With 5, where there are not 19 start bytes, or 6, where a time byte
 * has a fixed bit set, the state is that of 19 zero bytes. With 255, where the state's length is not
 * TALLOWREED_STATE_SIZE, which is looked at before anything else, nothing is written. What the state held before does
 * not matter.
 */
unsigned char tallowreed_power_on(const unsigned char *start, __SIZE_TYPE__ start_length, unsigned char *state,
                                  __SIZE_TYPE__ state_length);

/*
 * One event on a state, which becomes the state after it. Tells the refusal, the pin after the event, and the answer
 * with, where it is TALLOWREED_READ, its byte; the byte is 0 otherwise. Refused with 2 or 3 the state stays, and the
 * answer is TALLOWREED_QUIET with the state's pin. Refused with 1 the bytes stay, and all other parts are 0.
 */
unsigned int tallowreed_step(unsigned char *state, __SIZE_TYPE__ state_length, unsigned char kind, unsigned char byte,
                             unsigned short count);

/* The pin of a state: tells the refusal, 0 or 1, and the pin; the other parts are 0, and with 1 all are. */
unsigned int tallowreed_pin(const unsigned char *state, __SIZE_TYPE__ state_length);

/*
 * A register of a state as it stands, without the latch: tells the refusal, 0 or 1, the pin, and TALLOWREED_READ with
 * the register's byte, which is FFh for an address over 1Fh; with 1 all other parts are 0. It is not a read on the bus
 * and changes nothing.
 */
unsigned int tallowreed_register(const unsigned char *state, __SIZE_TYPE__ state_length, unsigned char address);

/*
 * A whole script file: from its start bytes through all its events, a line of five characters in the output for each,
 * and the last state. Tells the refusal, the index of the event that it is for, and how many events have run. Refused,
 * nothing has run, the output stays as it is, and the state is that of 19 zero bytes. With 255, where the state's
 * length is not TALLOWREED_STATE_SIZE, which is looked at before anything else, the state stays too, and index and
 * count are 0. Output past the lines stays. What the state held before does not matter.
 */
unsigned long tallowreed_run(const unsigned char *file, __SIZE_TYPE__ file_length, unsigned char *output,
                             __SIZE_TYPE__ output_length, unsigned char *state, __SIZE_TYPE__ state_length);

#ifdef __cplusplus
}
#endif

#endif
