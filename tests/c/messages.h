/* The C entries of messages, by a type's number: on rows as they are, and through the structs of the header. */
#ifndef MESSAGES_H
#define MESSAGES_H

#include <stdbool.h>

#include "tecelume.h"

enum { TYPES = 12, ROW_MAX = 32, LISTS_MAX = 3 };

struct message_type {
    const char *name;
    size_t numbers, lists;
    uint32_t (*decode)(const uint8_t *payload, size_t payload_len, uint64_t *row, size_t places);
    uint64_t (*encode)(const uint64_t *row, size_t numbers, const tecelume_bytes *lists, uint8_t *out, size_t room);
    /* Through a struct: reads into one, and makes the row of what it holds, which is left as it was if the payload is refused or if a
     * refusal touches the struct; writes what a row says, of numbers that the struct's members do not hold the nearest that they do. */
    uint32_t (*decode_struct)(const uint8_t *payload, size_t payload_len, uint64_t *row);
    uint64_t (*encode_struct)(const uint64_t *row, const tecelume_bytes *lists, uint8_t *out, size_t room);
    /* in a row, how many of the first numbers are floats, and where tags are, LISTS_MAX + 1 of them or fewer */
    size_t floats, tags;
    size_t tag_at[4];
};

extern const struct message_type message_types[TYPES];

#endif
