#include "yardstick.h"

#include "bus.h"
#include "pin.h"
#include "pulses.h"
#include "registers.h"
#include "tallowreed.h"

enum { LINE_SIZE = 5, EVENT_SIZE = 4, HEADER_SIZE = 8 };

static void begin_from(struct yardstick *chip, const unsigned char *start)
{
    __builtin_memcpy(chip->registers, start, TIME_SIZE);
    __builtin_memcpy(chip->registers + RAM, start + TIME_SIZE, RAM_SIZE);
    begin(chip);
}

static void begin_from_zeros(struct yardstick *chip)
{
    static const unsigned char zeros[TALLOWREED_START_SIZE];
    begin_from(chip, zeros);
}

unsigned char yardstick_power_on(struct yardstick *chip, const unsigned char *start, __SIZE_TYPE__ length)
{
    if (length == TALLOWREED_START_SIZE && !time_has_fixed_bit(start)) {
        begin_from(chip, start);
        return TALLOWREED_TAKEN;
    }
    begin_from_zeros(chip);
    return length == TALLOWREED_START_SIZE ? TALLOWREED_BAD_START : TALLOWREED_BAD_SECTION;
}

/* Refusal 2 or 3 of an event, or 0. */
static unsigned int event_refusal(unsigned char kind, unsigned char byte, unsigned short count)
{
    if (kind > TALLOWREED_POWER_LOSS)
        return TALLOWREED_BAD_KIND;
    if ((kind == TALLOWREED_PULSES) != (count != 0) || (kind != TALLOWREED_BYTE && byte != 0))
        return TALLOWREED_BAD_FIELD;
    return TALLOWREED_TAKEN;
}

/* A good event on a well-formed state; the answer and its byte as they are told. */
static unsigned int happen(struct yardstick *chip, unsigned char kind, unsigned char byte, unsigned short count)
{
    switch (kind) {
    case TALLOWREED_START:
        chip->phase = AWAITING_ADDRESS;
        break;
    case TALLOWREED_STOP:
        stop(chip);
        break;
    case TALLOWREED_BYTE:
        return (take_byte(chip, byte) ? TALLOWREED_ACK : TALLOWREED_NAK) << 24;
    case TALLOWREED_READ_ACK:
    case TALLOWREED_READ_NAK:
        return TALLOWREED_READ << 24 | send_byte(chip, kind == TALLOWREED_READ_NAK) << 16;
    case TALLOWREED_PULSES:
        make_pulses(chip, count);
        break;
    case TALLOWREED_POWER_LOSS:
        begin(chip);
        break;
    }
    return TALLOWREED_QUIET << 24;
}

unsigned int yardstick_step(struct yardstick *chip, unsigned char kind, unsigned char byte, unsigned short count)
{
    unsigned int refusal = well_formed(chip) ? event_refusal(kind, byte, count) : TALLOWREED_BAD_STATE;
    unsigned int answer = refusal == TALLOWREED_TAKEN ? happen(chip, kind, byte, count) : TALLOWREED_QUIET << 24;
    return answer | (unsigned int)pin(chip) << 8 | refusal;
}

static unsigned int word(const unsigned char *bytes)
{
    return bytes[0] | bytes[1] << 8;
}

/* The refusal of a file, with its index as it is told, or 0. */
static unsigned long file_refusal(const unsigned char *file, __SIZE_TYPE__ length, __SIZE_TYPE__ output_length)
{
    if (length > LONGEST_FILE)
        return TALLOWREED_FILE_LONG;
    if (length < HEADER_SIZE)
        return TALLOWREED_FILE_SHORT;
    unsigned int count = word(file), events = word(file + 2), start = word(file + 6);
    unsigned int events_end = events + EVENT_SIZE * count, start_end = start + TALLOWREED_START_SIZE;
    if (word(file + 4) != TALLOWREED_START_SIZE || events < HEADER_SIZE || start < HEADER_SIZE || events_end > length ||
        start_end > length || (count != 0 && events < start_end && start < events_end))
        return TALLOWREED_BAD_SECTION;
    if (time_has_fixed_bit(file + start))
        return TALLOWREED_BAD_START;
    for (unsigned int index = 0; index < count; index++) {
        const unsigned char *event = file + events + EVENT_SIZE * index;
        unsigned int refusal = event_refusal(event[0], event[1], word(event + 2));
        if (refusal != TALLOWREED_TAKEN)
            return (unsigned long)index << 16 | refusal;
    }
    return output_length < LINE_SIZE * count ? TALLOWREED_OUTPUT_SHORT : TALLOWREED_TAKEN;
}

static void write_line(unsigned char *line, unsigned int answer, unsigned char level)
{
    static const char digits[] = "0123456789ABCDEF", texts[] = "--AKNK";
    unsigned int byte = TALLOWREED_BYTE_OF(answer), kind = TALLOWREED_ANSWER_OF(answer);
    line[0] = kind == TALLOWREED_READ ? digits[byte >> 4] : texts[2 * kind];
    line[1] = kind == TALLOWREED_READ ? digits[byte & 15] : texts[2 * kind + 1];
    line[2] = ' ';
    line[3] = level;
    line[4] = '\n';
}

unsigned long yardstick_run(const unsigned char *file, __SIZE_TYPE__ file_length, unsigned char *output,
                            __SIZE_TYPE__ output_length, struct yardstick *chip)
{
    unsigned long refused = file_refusal(file, file_length, output_length);
    if (refused) {
        begin_from_zeros(chip);
        return refused;
    }
    unsigned int count = word(file);
    const unsigned char *event = file + word(file + 2);
    begin_from(chip, file + word(file + 6));
    for (unsigned int index = 0; index < count; index++, event += EVENT_SIZE, output += LINE_SIZE) {
        unsigned int answer = happen(chip, event[0], event[1], word(event + 2));
        write_line(output, answer, pin(chip));
    }
    return (unsigned long)count << 32;
}
