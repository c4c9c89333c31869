/*
 * The yardstick on the test input of the independent model, with the output that the model writes for it
 * (harness/README.md): "check runs NAME ROOM.." on script files, "check items" on the items of standard input. "check
 * start" takes all of standard input for start bytes, and prints a refusal and the state.
 */
#include "form.h"
#include "libc.h"
#include "yardstick.h"

enum { BEHIND = 8, LARGEST_ROOM = 20472, LARGEST_INPUT = 1 << 20 };

static unsigned char input[LARGEST_INPUT];
static unsigned char output[LARGEST_ROOM + BEHIND];
static struct yardstick chip;

static void print_hex(const unsigned char *bytes, int count)
{
    for (int at = 0; at < count; at++)
        printf("%02X", bytes[at]);
    printf("\n");
}

/* One run with the output lent in the length asked for; all of it is dots before. */
static int print_run(const char *name, unsigned long room)
{
    int file = open(name, 0);
    long length = file < 0 ? -1 : read_all(file, input, LARGEST_INPUT);
    if (length < 0 || close(file) != 0 || room > LARGEST_ROOM)
        return 0;
    memset(output, '.', room + BEHIND);
    unsigned long ran = yardstick_run(input, (__SIZE_TYPE__)length, output, room, &chip);
    printf("%s %lu\n", name, room);
    printf("refusal %lu index %lu count %lu\n", TALLOWREED_RUN_REFUSAL_OF(ran), TALLOWREED_RUN_INDEX_OF(ran),
           TALLOWREED_RUN_COUNT_OF(ran));
    print_hex(chip.registers, 32);
    printf("%.*s\n", (int)room + BEHIND, (const char *)output);
    return 1;
}

static int print_runs(int words, char **word)
{
    for (int at = 0; at + 1 < words; at += 2)
        if (!print_run(word[at], strtoul(word[at + 1], 0, 10)))
            return 1;
    return 0;
}

static void print_state(void)
{
    unsigned char form[TALLOWREED_STATE_SIZE];
    to_form(&chip, form);
    print_hex(form, TALLOWREED_STATE_SIZE);
}

static void print_told(unsigned int told)
{
    static const char *const texts[] = {"--", "AK", "NK"};
    unsigned int answer = TALLOWREED_ANSWER_OF(told);
    if (TALLOWREED_REFUSAL_OF(told) != TALLOWREED_TAKEN)
        printf("refused %u\n", TALLOWREED_REFUSAL_OF(told));
    else if (answer == TALLOWREED_READ)
        printf("%02X %c\n", TALLOWREED_BYTE_OF(told), (int)TALLOWREED_PIN_OF(told));
    else
        printf("%s %c\n", texts[answer], (int)TALLOWREED_PIN_OF(told));
}

/* The events of an item: a line for each, and the state after a STOP, after a power loss and at the end. */
static void print_events(const unsigned char *event, unsigned int count)
{
    int shown = 0;
    for (; count != 0; count--, event += 4) {
        unsigned int told = yardstick_step(&chip, event[0], event[1], (unsigned short)number_at(event + 2, 2));
        print_told(told);
        shown = TALLOWREED_REFUSAL_OF(told) == TALLOWREED_TAKEN &&
                (event[0] == TALLOWREED_STOP || event[0] == TALLOWREED_POWER_LOSS);
        if (shown)
            print_state();
    }
    if (!shown)
        print_state();
}

static void from_form(struct yardstick *chip, const unsigned char form[TALLOWREED_STATE_SIZE])
{
    __builtin_memcpy(chip->registers, form, 32);
    __builtin_memcpy(chip->latch, form + 32, 7);
    chip->reload = form[39];
    chip->pointer = form[40];
    chip->phase = form[41];
    chip->mark = form[42];
    chip->age = (unsigned short)number_at(form + 43, 2);
    chip->alarm_pulse = (unsigned short)number_at(form + 45, 2);
    chip->countdown_pulse = (unsigned short)number_at(form + 47, 2);
    chip->second_counter = number_at(form + 49, 4);
    chip->divider = number_at(form + 53, 4);
    chip->prescaler = number_at(form + 57, 4);
}

static void power_on(const unsigned char *start, __SIZE_TYPE__ length)
{
    unsigned int refusal = yardstick_power_on(&chip, start, length);
    if (refusal != TALLOWREED_TAKEN)
        printf("refused %u\n", refusal);
}

/* Scripts from power-on and from a state; all of the input must be such. */
static int print_items(void)
{
    long length = read_all(0, input, LARGEST_INPUT), at = 0;
    while (at < length && input[at] <= 1) {
        long events = at + 1 + (input[at] ? TALLOWREED_STATE_SIZE : TALLOWREED_START_SIZE) + 2;
        unsigned int count = number_at(input + events - 2, 2);
        if (input[at])
            from_form(&chip, input + at + 1);
        else
            power_on(input + at + 1, TALLOWREED_START_SIZE);
        print_events(input + events, count);
        at = events + 4 * (long)count;
    }
    return length < 0 || length == LARGEST_INPUT || at != length;
}

static int print_start(void)
{
    long length = read_all(0, input, LARGEST_INPUT);
    if (length < 0)
        return 1;
    power_on(input, (__SIZE_TYPE__)length);
    print_state();
    return 0;
}

int main(int words, char **word)
{
    if (words > 1 && strcmp(word[1], "runs") == 0)
        return print_runs(words - 2, word + 2);
    if (words == 2 && strcmp(word[1], "items") == 0)
        return print_items();
    if (words == 2 && strcmp(word[1], "start") == 0)
        return print_start();
    return 2;
}
