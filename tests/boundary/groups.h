/* The groups of tries. Each returns only if all was as it should be. */
#ifndef BOUNDARY_GROUPS_H
#define BOUNDARY_GROUPS_H

/* One case of the stream, behind the byte that tells what it is. */
void try_power_on(void);
void try_state(void);
void try_run(void);

/* States of any length but the right one, and lengths of 0 with null pointers. */
void try_lengths(void);

/* Start bytes, files and outputs that are very long. */
void try_long(void);

/* Buffers right beside memory that no one may touch. */
void try_fences(void);

#endif
