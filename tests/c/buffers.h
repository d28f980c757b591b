/* What batches.c and texts.c share: random numbers, and buffers that are lent in random places. */
#ifndef BUFFERS_H
#define BUFFERS_H

#include <stdbool.h>
#include <stdint.h>
#include <string.h>

#include "lent.h"

static uint64_t random_state;

static uint64_t next_random(void)
{
    uint64_t z = random_state += 0x9E3779B97F4A7C15;
    z = (z ^ z >> 30) * 0xBF58476D1CE4E5B9;
    z = (z ^ z >> 27) * 0x94D049BB133111EB;
    return z ^ z >> 31;
}

static size_t below(size_t n)
{
    return (size_t)(next_random() % n);
}

struct buffer {
    uint8_t bytes[LENT_MAX];
    size_t length;
};

static struct lent lend_buffer(const struct buffer *b)
{
    uint64_t choice = next_random();
    return lend((enum placement)(choice % PLACEMENTS), b->bytes, b->length, choice >> 8 & 255);
}

/* Alike in the bytes before `length`, from `from` on. */
static bool alike(const struct buffer *one, const struct buffer *other, size_t from, size_t length)
{
    return from >= length || memcmp(one->bytes + from, other->bytes + from, length - from) == 0;
}

#endif
