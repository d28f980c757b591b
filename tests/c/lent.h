/* Buffers as a caller lends them, each placed so that a call which leaves it is seen:
 *
 *   BETWEEN  guard bytes on both sides, any alignment: the program itself sees writes nearby
 *   ON_HEAP  a heap block of just this size: valgrind sees every access outside it, reads too; AddressSanitizer only those of code that
 *            it instruments and of memcpy and its like, which it replaces also for an archive that it did not instrument
 *   AT_PAGE  the end, or the front, at an inaccessible page: the processor sees every access across that edge, reads too, at full speed */
#ifndef LENT_H
#define LENT_H

#include <stdbool.h>
#include <stddef.h>
#include <stdint.h>

enum { LENT_MAX = 5 * 4096 };

enum placement { BETWEEN, ON_HEAP, AT_PAGE, PLACEMENTS };

struct lent {
    uint8_t *bytes; /* NULL perhaps for a length of 0 */
    size_t length;
    enum placement placement;
    uint8_t *block; /* what the buffer lies in */
    size_t block_size; /* of BETWEEN */
};

/* Lends a copy of the content. The choice decides alignment, edge and NULL. */
struct lent lend(enum placement placement, const uint8_t *content, size_t length, unsigned choice);

bool guards_stay(const struct lent *l);

/* Frees the buffer, and copies what it holds to `content` first. */
void take_back(struct lent *l, uint8_t *content);

#endif
