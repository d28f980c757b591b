/* The core of the gateway, without input or output: a node that tells of every NodeStatus it receives, answers every GetNodeInfo request
 * and, if its owner wants it, hands out node IDs. What it has to say and to send it gives to its owner's functions. */
#ifndef NODE_H
#define NODE_H

#include <stdbool.h>
#include <stddef.h>
#include <stdint.h>

#include "tecelume.h"

/* A frame, and when it came or goes, in microseconds. */
struct frame {
    uint64_t time;
    uint32_t id;
    size_t length;
    uint8_t data[8];
};

struct owner {
    void (*told)(void *self, uint32_t source, const tecelume_node_status *status);
    void (*sent)(void *self, const struct frame *frame);
    /* The node with this unique ID is about to be told its node ID; it is told only if this gives true. NULL hands out no IDs. */
    bool (*given)(void *self, uint32_t node_id, const uint8_t *unique_id);
    void *self;
};

enum { NODE_ANSWERS = TECELUME_OTHER_INTERFACE + 1 }; /* it is the largest */

/* The whole memory of the node. */
struct node {
    struct owner owner;
    uint32_t own;
    uint64_t answers[NODE_ANSWERS]; /* how often the receiver answered each number */
    uint64_t refused;               /* payloads that are none of the type they claim to be, and answers that could not be sent */
    uint64_t turned_away;           /* nodes for which no ID was free */
    uint64_t marks[2];              /* of static nodes: those heard of that have no ID from here */
    uint8_t allocator[TECELUME_ALLOCATOR_SIZE];
    uint8_t state[TECELUME_RECEIVER_SIZE];
    uint8_t map[TECELUME_MAP_SIZE];
    uint8_t payload[TECELUME_OUTPUT_SIZE];
    uint8_t records[TECELUME_SEND_SIZE(TECELUME_PAYLOAD_MAX)];
};

/* The number of setup: 0, or 13 if the own ID is over 127 or the library does not know the types. The allocator's table is empty; the owner
 * may put in a state that it kept. */
uint32_t node_setup(struct node *n, uint32_t own, const struct owner *owner);

/* Takes one frame that came by an interface, 0 to 2. */
void node_receive(struct node *n, uint32_t interface_number, const struct frame *f);

#endif
