/*
 * The proved clock and the yardstick on the same work, timed in turns:
 *
 *   measure steps FILE FIRST RUNS   the events of the script file FILE as single steps, from event FIRST on again and
 *                                   again; those before it prepare the state
 *   measure file FILE 0 RUNS        the whole file again and again
 *
 * First both sides do the work with everything compared that they tell. Then there is a line for each run, with RUNS 0
 * none: for each side the nanoseconds and how many rounds of the work were made in them.
 */
#include "form.h"
#include "libc.h"
#include "tallowreed.h"
#include "yardstick.h"

enum { COMPARED_ROUNDS = 50 };

/* A run is so many slices of each side in turns, of about so many nanoseconds: what else the machine does hits both. */
enum { SLICES = 5, SLICE = 60000000 };

enum side { PROVED, YARDSTICK };

struct event {
    unsigned char kind, byte;
    unsigned short count;
};

static unsigned char file[LONGEST_FILE];
static __SIZE_TYPE__ file_length;
static struct event events[MOST_EVENTS];
static unsigned int event_count, first_event;
static int whole;

static unsigned char state[TALLOWREED_STATE_SIZE];
static struct yardstick chip;
static unsigned char output[2][LONGEST_OUTPUT];

static unsigned int step(enum side side, const struct event *event)
{
    if (side == PROVED)
        return tallowreed_step(state, sizeof state, event->kind, event->byte, event->count);
    return yardstick_step(&chip, event->kind, event->byte, event->count);
}

static unsigned long run(enum side side)
{
    if (side == PROVED)
        return tallowreed_run(file, file_length, output[side], LONGEST_OUTPUT, state, sizeof state);
    return yardstick_run(file, file_length, output[side], LONGEST_OUTPUT, &chip);
}

static int same_states(void)
{
    unsigned char form[TALLOWREED_STATE_SIZE];
    to_form(&chip, form);
    return memcmp(state, form, sizeof form) == 0;
}

/* What is told may be the same: then it is the states or the lines that differ. */
static int differ(const char *where, unsigned long at, unsigned long proved, unsigned long by_hand)
{
    dprintf(2, "measure: the two sides differ, %s %lu: told %lX and %lX, or what is left\n", where, at, proved, by_hand);
    return 0;
}

/* Both sides take the start bytes and are in the same state. */
static int compare_power_on(void)
{
    unsigned int at = number_at(file + 6, 2);
    unsigned int proved = tallowreed_power_on(file + at, TALLOWREED_START_SIZE, state, sizeof state);
    unsigned int by_hand = yardstick_power_on(&chip, file + at, TALLOWREED_START_SIZE);
    if (proved == by_hand && proved == TALLOWREED_TAKEN && same_states())
        return 1;
    return differ("start bytes at", at, proved, by_hand);
}

static int compare_steps(unsigned int first)
{
    for (unsigned int index = first; index < event_count; index++) {
        unsigned int proved = step(PROVED, &events[index]), by_hand = step(YARDSTICK, &events[index]);
        if (proved != by_hand || TALLOWREED_REFUSAL_OF(proved) != TALLOWREED_TAKEN || !same_states())
            return differ("event", index, proved, by_hand);
    }
    return 1;
}

static int compare_runs(void)
{
    memset(output, '.', sizeof output);
    unsigned long proved = run(PROVED), by_hand = run(YARDSTICK);
    if (proved == by_hand && TALLOWREED_RUN_REFUSAL_OF(proved) == TALLOWREED_TAKEN && same_states() &&
        memcmp(output[PROVED], output[YARDSTICK], LONGEST_OUTPUT) == 0)
        return 1;
    return differ("file of length", file_length, proved, by_hand);
}

static int compare(void)
{
    if (whole)
        return compare_runs();
    int same = compare_power_on() && compare_steps(0);
    for (int round = 1; same && round < COMPARED_ROUNDS; round++)
        same = compare_steps(first_event);
    return same;
}

static long nanoseconds(void)
{
    struct timespec time;
    clock_gettime(CLOCK_MONOTONIC, &time);
    return time.tv_sec * 1000000000 + time.tv_nsec;
}

static long time_of(enum side side, long rounds)
{
    long begin = nanoseconds();
    for (long round = 0; round < rounds; round++) {
        if (whole)
            run(side);
        else
            for (unsigned int index = first_event; index < event_count; index++)
                step(side, &events[index]);
    }
    return nanoseconds() - begin;
}

/* As many rounds as fill a slice; this warms the side up, too. */
static long rounds_of_slice(enum side side)
{
    long rounds = 1, took = time_of(side, rounds);
    for (; took < SLICE / 2; took = time_of(side, rounds))
        rounds *= 2;
    rounds = (long)((double)rounds * SLICE / took);
    return rounds > 0 ? rounds : 1;
}

static void print_times(unsigned long runs)
{
    long proved_rounds = rounds_of_slice(PROVED), by_hand_rounds = rounds_of_slice(YARDSTICK);
    for (; runs != 0; runs--) {
        long proved = 0, by_hand = 0;
        for (int slice = 0; slice < SLICES; slice++) {
            proved += time_of(PROVED, proved_rounds);
            by_hand += time_of(YARDSTICK, by_hand_rounds);
        }
        printf("%ld %ld %ld %ld\n", proved, SLICES * proved_rounds, by_hand, SLICES * by_hand_rounds);
    }
}

/* A file that the script program takes: it is what ./bench made, so only its length and count are looked at. */
static int read_script(const char *name)
{
    int from = open(name, 0);
    long length = from < 0 ? -1 : read_all(from, file, LONGEST_FILE);
    if (length < 8)
        return 0;
    file_length = (__SIZE_TYPE__)length;
    event_count = number_at(file, 2);
    if (event_count > MOST_EVENTS)
        return 0;
    for (unsigned int index = 0; index < event_count; index++) {
        const unsigned char *bytes = file + number_at(file + 2, 2) + 4 * index;
        events[index] = (struct event){bytes[0], bytes[1], (unsigned short)number_at(bytes + 2, 2)};
    }
    return 1;
}

int main(int words, char **word)
{
    if (words != 5 || !read_script(word[2])) {
        dprintf(2, "usage: measure steps|file FILE FIRST RUNS, with a script file\n");
        return 2;
    }
    whole = strcmp(word[1], "file") == 0;
    first_event = (unsigned int)strtoul(word[3], 0, 10);
    unsigned long runs = strtoul(word[4], 0, 10);
    if (!compare())
        return 1;
    if (runs != 0)
        print_times(runs);
    return 0;
}
