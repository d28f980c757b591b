/* What wrong.c and wrong_payloads.c share. */
#ifndef WRONG_H
#define WRONG_H

#include <stdbool.h>
#include <stdint.h>

enum { OTHER = 99 }; /* a number that no call answers */

/* The environment's WRONG is this. */
bool is(const char *name);

/* The right answer, or the wrong one if this is the call. */
uint64_t answer(uint64_t right, uint64_t wrong);

#endif
