#include "lent.h"

#include "report.h"

/* The space that a buffer of at most this length takes. */
#define SPACE_FOR(most) (GUARD + PLACES + (most) + GUARD)

static unsigned char start_space[SPACE_FOR(MOST_OTHER)];
static unsigned char file_space[SPACE_FOR(MOST_OTHER)];
static unsigned char output_space[SPACE_FOR(MOST_OUTPUT)];
static unsigned char state_space[SPACE_FOR(MOST_OTHER)];

struct lent start_lent = {"start bytes", start_space, MOST_OTHER, 0, 0};
struct lent file_lent = {"file", file_space, MOST_OTHER, 0, 0};
struct lent output_lent = {"output", output_space, MOST_OUTPUT, 0, 0};
struct lent state_lent = {"state", state_space, MOST_OTHER, 0, 0};

/* Depends on the place, so that no byte that has moved passes for another. */
static unsigned char pattern(size place)
{
    return (unsigned char)(place * 37 + (place >> 8) + 0xA5);
}

static size next_place(const struct lent *lent)
{
    return GUARD + (lent->at + 1) % PLACES;
}

unsigned char *lend(struct lent *lent, const unsigned char *given, size given_length, size length)
{
    lent->at = next_place(lent);
    lent->length = length;
    if (length > lent->most)
        give_up("there is no space for a buffer of length", length);
    for (size place = lent->at - GUARD; place < lent->at + length + GUARD; place++)
        lent->space[place] = pattern(place);
    for (size at = 0; at < given_length; at++)
        lent->space[lent->at + at] = given[at];
    return lent->space + lent->at;
}

/* Places are told from the buffer's begin, so those before it are negative. */
static void expect_pattern(const struct lent *lent, size place)
{
    expect_byte(lent->name, (long)place - (long)lent->at, pattern(place), lent->space[place]);
}

void expect_lent(const struct lent *lent, const unsigned char *expected, size expected_length)
{
    for (size place = lent->at - GUARD; place < lent->at; place++)
        expect_pattern(lent, place);
    expect_bytes(lent->name, expected, lent->space + lent->at, expected_length);
    for (size place = lent->at + expected_length; place < lent->at + lent->length + GUARD; place++)
        expect_pattern(lent, place);
}
