#include "report.h"

#include "../../include/tallowreed.h"

static const char *const names[FUNCTIONS] = {
    "tallowreed_state_size", "tallowreed_power_on", "tallowreed_step",
    "tallowreed_pin",        "tallowreed_register", "tallowreed_run",
};

static unsigned long calls[FUNCTIONS];
static enum function called;
static const char *case_words;
static unsigned long case_number;

void begin_case(const char *words, unsigned long number)
{
    case_words = words;
    case_number = number;
}

void begin_call(enum function function)
{
    called = function;
    calls[function]++;
}

void give_up(const char *words, unsigned long number)
{
    printf("boundary: %s %lu\n", words, number);
    exit(1);
}

static void print_case(void)
{
    printf("boundary: %s, %s %lu", names[called], case_words, case_number);
}

void expect_number(const char *part, unsigned long expected, unsigned long came)
{
    if (expected == came)
        return;
    print_case();
    printf(": %s: expected %lu, came %lu\n", part, expected, came);
    exit(1);
}

void expect_byte(const char *buffer, long at, unsigned char expected, unsigned char came)
{
    if (expected == came)
        return;
    print_case();
    printf(": byte %ld of the %s: expected %02Xh, came %02Xh\n", at, buffer, expected, came);
    exit(1);
}

void expect_bytes(const char *buffer, const unsigned char *expected, const unsigned char *came, size length)
{
    for (size at = 0; at < length; at++)
        expect_byte(buffer, (long)at, expected[at], came[at]);
}

static void print_told(const char *word, unsigned int told)
{
    printf("%s refusal %u, pin %02Xh, byte %02Xh, answer %u", word, TALLOWREED_REFUSAL_OF(told),
           TALLOWREED_PIN_OF(told), TALLOWREED_BYTE_OF(told), TALLOWREED_ANSWER_OF(told));
}

void expect_told(unsigned int expected, unsigned int came)
{
    if (expected == came)
        return;
    print_case();
    print_told(": expected", expected);
    print_told("; came", came);
    printf("\n");
    exit(1);
}

static void print_ran(const char *word, unsigned long ran)
{
    printf("%s refusal %lu, index %lu, count %lu (%lXh)", word, TALLOWREED_RUN_REFUSAL_OF(ran),
           TALLOWREED_RUN_INDEX_OF(ran), TALLOWREED_RUN_COUNT_OF(ran), ran);
}

void expect_ran(unsigned long expected, unsigned long came)
{
    if (expected == came)
        return;
    print_case();
    print_ran(": expected", expected);
    print_ran("; came", came);
    printf("\n");
    exit(1);
}

static void end_at_touch(int number)
{
    print_case();
    printf(": memory was touched that is not lent (signal %d)\n", number);
    exit(1);
}

void watch_touches(void)
{
    signal(SEGMENT_FAULT, end_at_touch);
}

void print_calls(void)
{
    const char *between = "boundary: ";
    for (int function = 0; function < FUNCTIONS; function++) {
        printf("%s%lu %s", between, calls[function], names[function]);
        between = ", ";
    }
    printf(", no difference\n");
}
