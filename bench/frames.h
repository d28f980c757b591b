/* What the benchmarks of reception and of sending share: the five types, payloads, the frames that must be made of them, and a clock.
 * The checksum of these frames runs bit by bit, so that no side has it in common. */
#ifndef FRAMES_H
#define FRAMES_H

#include <stddef.h>
#include <stdint.h>

#include "tecelume.h"

struct type {
    uint32_t kind, type_id;
};

enum { NODE_STATUS, ALLOCATION, KEY_VALUE, LOG_MESSAGE, GET_NODE_INFO, TYPES };

extern const struct type types[TYPES];

enum { FRAME_PRIORITY = 16 }; /* of every frame here */

struct frame {
    uint32_t id;
    uint8_t length;
    uint8_t data[8];
    uint8_t interface_number; /* that it comes by */
};

/* A byte of the payload that a node sends at its turn. */
uint8_t payload_byte(unsigned source, unsigned turn, unsigned i);

/* The frames of a message of that type, with the turn as transfer ID, by interface 0; gives their number, at most TECELUME_FRAMES_MAX. */
size_t make_transfer(const struct type *type, unsigned source, unsigned turn, unsigned length, struct frame *f);

double nanoseconds(void);

#endif
