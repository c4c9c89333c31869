/* Memory that stands alone: a call that touches a byte before it or behind it is told. */
#ifndef BOUNDARY_FENCE_H
#define BOUNDARY_FENCE_H

#include "libc.h"

/* What memory is given in, at least: no machine's pages are larger. */
#define BLOCK 0x10000

/* So many bytes, blocks all of them, with one block before and some bytes behind that are there for no one. */
unsigned char *fenced(size length, size behind);

#endif
