#include "../../include/tallowreed.h"
#include "groups.h"
#include "lent.h"
#include "report.h"
#include "stream.h"

#define LINE 5

static unsigned char file[MOST_OTHER];
static unsigned char lines[MOST_OUTPUT];

void try_run(void)
{
    unsigned char after[TALLOWREED_STATE_SIZE];
    size file_length = next_number(4);
    size output_length = next_number(4);
    if (file_length > MOST_OTHER)
        give_up("there is no space for a file of length", file_length);
    next_bytes(file, file_length);
    unsigned long ran = next_number(8);
    next_bytes(after, sizeof after);
    size lines_length = LINE * TALLOWREED_RUN_COUNT_OF(ran);
    if (lines_length > MOST_OUTPUT)
        give_up("there is no space for lines of length", lines_length);
    next_bytes(lines, lines_length);

    unsigned char *file_bytes = lend(&file_lent, file, file_length, file_length);
    unsigned char *output = lend(&output_lent, 0, 0, output_length);
    unsigned char *state = lend(&state_lent, 0, 0, sizeof after);
    begin_call(RUN);
    expect_ran(ran, tallowreed_run(file_bytes, file_length, output, output_length, state, sizeof after));
    expect_lent(&file_lent, file, file_length);
    expect_lent(&output_lent, lines, lines_length);
    expect_lent(&state_lent, after, sizeof after);
}
