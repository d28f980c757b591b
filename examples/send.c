/* Sends a NodeStatus, which fits one frame, and a KeyValue of three frames, and gives the records to a receiver as a bus would: what
 * was sent comes out again.
 *
 *     gcc -std=c99 -Iinclude -o send examples/send.c target/staticlib/libtecelume.a && ./send
 *
 * send.expected holds what this prints. */
#include <stdio.h>
#include <stdlib.h>

#include "tecelume.h"

enum { SENDER_ID = 42, RECEIVER_ID = 1, NODE_STATUS = 341, KEY_VALUE = 16370, ONLY_CABLE = 0 };

/* The whole memory of a sender and of a receiver, and the room for the frames and the payload of the longest transfer. */
static uint8_t map[TECELUME_MAP_SIZE];
static uint8_t state[TECELUME_RECEIVER_SIZE];
static uint8_t records[TECELUME_SEND_SIZE(TECELUME_PAYLOAD_MAX)];
static uint8_t payload[TECELUME_OUTPUT_SIZE];

/* Both sides have the type's signature in their checksum. 0, of a type that is not known, would let single frames through and no others. */
static uint64_t signature_of(uint32_t type_id)
{
    uint64_t signature = tecelume_signature(TECELUME_KIND_MESSAGE, type_id);
    if (signature == 0) {
        fprintf(stderr, "no signature of type %u\n", (unsigned)type_id);
        exit(1);
    }
    return signature;
}

static uint32_t setup(void)
{
    uint8_t list[2 * TECELUME_SUBSCRIPTION_SIZE];
    uint8_t *next = list;
    uint32_t number = tecelume_map_setup(map, sizeof map);
    if (number != TECELUME_SUCCESS)
        return number;
    next = tecelume_subscription(next, TECELUME_KIND_MESSAGE, NODE_STATUS, signature_of(NODE_STATUS));
    next = tecelume_subscription(next, TECELUME_KIND_MESSAGE, KEY_VALUE, signature_of(KEY_VALUE));
    return tecelume_setup(state, sizeof state, RECEIVER_ID, list, (size_t)(next - list));
}

static void print_bytes(const uint8_t *bytes, size_t length)
{
    for (size_t i = 0; i < length; i++)
        printf(" %02X", (unsigned)bytes[i]);
    printf("\n");
}

/* One record, as a driver would hand it to the bus and another node's driver to its receiver. */
static void carry(const uint8_t *record, uint64_t time)
{
    uint32_t id = tecelume_record_id(record);
    const uint8_t *data = tecelume_record_data(record);
    size_t length = tecelume_record_length(record);
    tecelume_result result = tecelume_receive(state, sizeof state, id, data, length, ONLY_CABLE, time, payload, sizeof payload);
    uint32_t number = tecelume_number(result);
    printf("%08X", (unsigned)id);
    print_bytes(data, length);
    printf("    %u, %s\n", (unsigned)number, tecelume_text(number));
    if (number == TECELUME_HANDED_OUT) {
        printf("    message %u from %u, transfer ID %u, %u bytes:", (unsigned)tecelume_type_id(result), (unsigned)tecelume_source(result),
               (unsigned)tecelume_transfer_id(result), (unsigned)tecelume_length(result));
        print_bytes(payload, tecelume_length(result));
    }
}

static void send_message(uint32_t type_id, const uint8_t *message, size_t length, uint64_t time)
{
    tecelume_result result = tecelume_send(map, sizeof map, SENDER_ID, TECELUME_MESSAGE, type_id, 0, 16, message, length,
                                           signature_of(type_id), time, 0, 0, records, sizeof records);
    uint32_t number = tecelume_number(result);
    printf("message %u, %u bytes: %u, transfer ID %u, %u frames\n", (unsigned)type_id, (unsigned)length, (unsigned)number,
           (unsigned)tecelume_transfer_id(result), (unsigned)tecelume_frames(result));
    for (size_t i = 0; i < tecelume_frames(result); i++)
        carry(records + i * TECELUME_RECORD_SIZE, time);
}

int main(void)
{
    /* up for one second, healthy, operational */
    static const uint8_t status[7] = {1, 0, 0, 0, 0, 0, 0};
    /* 25.0 as a float32, then the key */
    static const uint8_t reading[4 + 11] = {0x00, 0x00, 0xC8, 0x41, 't', 'e', 'm', 'p', 'e', 'r', 'a', 't', 'u', 'r', 'e'};
    uint32_t number;

    if (tecelume_version() != TECELUME_VERSION) {
        fprintf(stderr, "header and library do not go together\n");
        return 1;
    }
    number = setup();
    if (number != TECELUME_SUCCESS) {
        fprintf(stderr, "setup: %u, %s\n", (unsigned)number, tecelume_text(number));
        return 1;
    }
    send_message(NODE_STATUS, status, sizeof status, 1000000);
    send_message(KEY_VALUE, reading, sizeof reading, 1500000);
    send_message(NODE_STATUS, status, sizeof status, 2000000);
    return 0;
}
