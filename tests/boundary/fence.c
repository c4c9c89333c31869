#include "fence.h"

#include "report.h"

enum { NO_ACCESS = 0, READ_AND_WRITE = 3, PRIVATE_AND_ANONYMOUS = 0x22 };

unsigned char *fenced(size length, size behind)
{
    unsigned char *all = mmap(0, BLOCK + length + behind, NO_ACCESS, PRIVATE_AND_ANONYMOUS, -1, 0);
    if (all == (unsigned char *)-1 || mprotect(all + BLOCK, length, READ_AND_WRITE) != 0)
        give_up("no memory can be fenced, of length", length + behind);
    return all + BLOCK;
}
