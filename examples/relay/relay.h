/* The core of a relay, without input or output: it passes frames on and rewrites one byte of the payload of one service's responses in
 * passing. What it sends and what it did it gives to its owner's functions.
 *
 * The checksum of a transfer is in its first frame, and to correct it the relay must know the old byte and how many bytes come after it. The
 * byte may be in a later frame, and how long a response is shows only at its end. So the relay holds the frames of such a transfer back
 * until the end has come, and sends them all then; all other frames go through at once. Of a type with a fixed length it could let the
 * frames go as soon as the byte has come.
 *
 * The checksum is corrected (tecelume_patch) and not worked out afresh: the relay need not know the type's signature, reads no byte but the
 * one, and damage on the way to it is still found by the receiver behind it. */
#ifndef RELAY_H
#define RELAY_H

#include <stdbool.h>

#include "../gateway/node.h" /* struct frame */

/* What was done to a transfer whose end has come. */
struct rewritten {
    uint32_t source, transfer_id;
    size_t length; /* of the payload */
    uint8_t old_byte, new_byte;
    uint32_t old_checksum, new_checksum;
};

struct relay_owner {
    void (*sent)(void *self, const struct frame *frame);
    void (*told)(void *self, const struct rewritten *what);
    /* Why a frame, or those held of its transfer, is not passed on. */
    void (*dropped)(void *self, const struct frame *frame, const char *why);
    void *self;
};

enum { RELAY_TRANSFERS = 4 }; /* held at once */

/* A transfer that is held: its frames in order. Of an empty place the count is 0. */
struct held {
    size_t count;
    struct frame frames[TECELUME_FRAMES_MAX];
};

/* The whole memory of the relay. */
struct relay {
    struct relay_owner owner;
    uint32_t service;                       /* whose responses */
    size_t at;                              /* which byte of the payload, from 0 */
    uint8_t (*rewrite)(uint8_t byte);       /* what it becomes */
    struct held held[RELAY_TRANSFERS];
};

void relay_setup(struct relay *r, uint32_t service, size_t at, uint8_t (*rewrite)(uint8_t byte), const struct relay_owner *owner);

/* Takes one frame. What it sends goes out at once. */
void relay_take(struct relay *r, const struct frame *f);

#endif
