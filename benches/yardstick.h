/*
 * The clock chip SD2068 by hand, in C and for speed: what a good engineer writes who proves nothing. The proved clock
 * is timed against it. It follows the same rules, docs/RULES.md, and takes any state; tests/yardstick.py compares it
 * with the independent model. Kinds, refusals, answers and how they are packed are those of tallowreed.h.
 */
#ifndef YARDSTICK_H
#define YARDSTICK_H

/* The bounds of script files. */
enum { LONGEST_FILE = 16384, LONGEST_OUTPUT = 20445, MOST_EVENTS = 4089 };

enum yardstick_phase { CLOSED, AWAITING_ADDRESS, AWAITING_POINTER, WRITING, READING, DEAF };

/* The state, in the order of tallowreed.h. A closed bus has the age 0 and no mark. */
struct yardstick {
    unsigned char registers[32];
    unsigned char latch[7];
    unsigned char reload;
    unsigned char pointer;
    unsigned char phase;
    unsigned char mark;
    unsigned short age;
    unsigned short alarm_pulse;
    unsigned short countdown_pulse;
    unsigned int second_counter;
    unsigned int divider;
    unsigned int prescaler;
};

/* Power-on from start bytes; returns the refusal. Refused, the state is that of 19 zero bytes. */
unsigned char yardstick_power_on(struct yardstick *chip, const unsigned char *start, __SIZE_TYPE__ length);

/* One event in place. Refused, the state stays, and its pin is told. */
unsigned int yardstick_step(struct yardstick *chip, unsigned char kind, unsigned char byte, unsigned short count);

/* A script file: checked first, then run in place, with a line of five characters in the output for each event. */
unsigned long yardstick_run(const unsigned char *file, __SIZE_TYPE__ file_length, unsigned char *output,
                            __SIZE_TYPE__ output_length, struct yardstick *chip);

#endif
