/* The script program with the yardstick in it: a script file from standard input, its lines to standard output. */
#include "libc.h"
#include "tallowreed.h"
#include "yardstick.h"

static int write_all(const unsigned char *bytes, long length)
{
    while (length > 0) {
        long put = write(1, bytes, (__SIZE_TYPE__)length);
        if (put < 0)
            return 0;
        bytes += put;
        length -= put;
    }
    return 1;
}

int main(void)
{
    static unsigned char file[LONGEST_FILE + 1], output[LONGEST_OUTPUT];
    struct yardstick chip;
    long length = read_all(0, file, sizeof file);
    if (length < 0)
        return 1;
    unsigned long ran = yardstick_run(file, (__SIZE_TYPE__)length, output, sizeof output, &chip);
    if (TALLOWREED_RUN_REFUSAL_OF(ran) == TALLOWREED_TAKEN)
        return !write_all(output, 5 * (long)TALLOWREED_RUN_COUNT_OF(ran));
    printf("refused %lu\n", TALLOWREED_RUN_REFUSAL_OF(ran));
    return 0;
}
