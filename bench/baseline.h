/* A plain C receiver and sender of UAVCAN v0 transfers, the opponents of bench/receive.c and bench/send.c. They are written from the
 * published transport (RULES 2 to 8) and built as the stacks of the field are.
 *
 * The receiver has one static pool of 32-byte blocks, linked by number, from which come a list of streams and, for each, a list of
 * chunks that gather its payload and is walked at each frame; a table checksum that runs along with the frames; a callback that says
 * which types are wanted, and one that gets the transfers. It trusts its own memory and does less than the proved receiver: no frame is
 * refused by number, a tail that does not fit its frame is not looked for, a payload has no limit but the pool's, and a stream that
 * falls silent keeps its block for good.
 *
 * The sender has a table of transfer IDs that it searches from the front, and writes the frames byte by byte as records of the same 13
 * bytes. It trusts its memory, its caller's numbers and the room it is given: of the proved sender's refusals it has only the full
 * table. */
#ifndef BASELINE_H
#define BASELINE_H

#include <stdbool.h>
#include <stddef.h>
#include <stdint.h>

enum { BASELINE_BLOCKS = 512, BASELINE_CHUNK = 28 };

typedef uint32_t baseline_link; /* the number of a block, 0 for none */

enum baseline_kind { BASELINE_MESSAGE, BASELINE_REQUEST, BASELINE_RESPONSE };

/* What a CAN ID says. */
struct baseline_route {
    enum baseline_kind kind;
    uint16_t type_id;
    uint8_t source;
    uint8_t destination;
    uint8_t priority;
};

struct baseline_chunk {
    baseline_link next;
    uint8_t bytes[BASELINE_CHUNK];
};

struct baseline_stream {
    baseline_link next;
    baseline_link chunks; /* the payload in hand */
    uint64_t time;        /* of the last start taken */
    uint32_t key;
    uint16_t length;
    uint16_t sent; /* the checksum that came */
    uint16_t crc;  /* the checksum so far */
    uint8_t expected;
    uint8_t follows; /* interface */
    bool toggle;
};

union baseline_block {
    baseline_link next;
    struct baseline_chunk chunk;
    struct baseline_stream stream;
};

/* A complete transfer, valid until the callback returns. The payload of a single frame lies in the frame, another in chunks. */
struct baseline_transfer {
    struct baseline_route route;
    uint8_t transfer_id;
    uint64_t time;
    size_t length;
    const uint8_t *frame;
    baseline_link chunks;
};

/* Whether transfers of this kind and type are wanted, and under which signature. */
typedef bool baseline_accept(enum baseline_kind kind, uint16_t type_id, uint64_t *signature);
struct baseline;
typedef void baseline_handed_out(const struct baseline *r, const struct baseline_transfer *transfer);

struct baseline {
    union baseline_block pool[1 + BASELINE_BLOCKS];
    baseline_link unused;
    baseline_link streams;
    baseline_accept *accept;
    baseline_handed_out *handed_out;
    void *user;
    uint8_t own;
};

void baseline_init(struct baseline *r, uint8_t own, baseline_accept *accept, baseline_handed_out *handed_out, void *user);

void baseline_receive(struct baseline *r, uint32_t id, const uint8_t *frame, size_t length, uint8_t interface_number, uint64_t time);

/* Writes the payload into one buffer and gives its length. */
size_t baseline_copy(const struct baseline *r, const struct baseline_transfer *transfer, uint8_t *out);

/* ---- sending ---- */

enum { BASELINE_ENTRIES = 32, BASELINE_RECORD = 13 };

struct baseline_entry {
    uint64_t time; /* of the last use */
    uint32_t key;
    uint8_t next; /* transfer ID */
};

struct baseline_sender {
    struct baseline_entry entries[BASELINE_ENTRIES];
    size_t used;
};

void baseline_sender_init(struct baseline_sender *s);

/* Writes the records of a transfer and gives their number, 0 if the table is full. The transfer ID is that of a response. */
size_t baseline_send(struct baseline_sender *s, const struct baseline_route *route, uint8_t transfer_id, uint64_t signature,
                     const uint8_t *payload, size_t length, uint64_t time, uint8_t *out);

#endif
