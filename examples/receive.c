/* Receives the dynamic node ID allocation that docs/RULES.md prints as a log (15.3): a node without an ID asks in three anonymous
 * messages, and the allocator, node 1, answers each. Its second and third answer take several frames and a checksum. The receiver is set
 * up as node 1: it hears both sides, since a message is for everyone, its sender included.
 *
 *     gcc -std=c99 -Iinclude -o receive examples/receive.c target/staticlib/libtecelume.a && ./receive
 *
 * receive.expected holds what this prints. */
#include <stdio.h>
#include <stdlib.h>

#include "tecelume.h"

struct frame {
    uint32_t milliseconds;
    uint32_t id;
    uint8_t length;
    uint8_t data[8];
};

static const struct frame frames[] = {
    {1117, 0x1EEE8100, 8, {0x01, 0x44, 0xC0, 0x8B, 0x63, 0x5E, 0x05, 0xC0}},
    {1117, 0x1E000101, 8, {0x00, 0x44, 0xC0, 0x8B, 0x63, 0x5E, 0x05, 0xC0}},
    {1406, 0x1EEBE500, 8, {0x00, 0xF4, 0xBC, 0x10, 0x96, 0xDF, 0x11, 0xC1}},
    {1406, 0x1E000101, 8, {0x05, 0xB0, 0x00, 0x44, 0xC0, 0x8B, 0x63, 0x81}},
    {1406, 0x1E000101, 8, {0x5E, 0x05, 0xF4, 0xBC, 0x10, 0x96, 0xDF, 0x21}},
    {1406, 0x1E000101, 2, {0x11, 0x41}},
    {1485, 0x1E41E100, 6, {0x00, 0xA8, 0xBA, 0x54, 0x47, 0xC2}},
    {1485, 0x1E000101, 8, {0x29, 0xBA, 0xFA, 0x44, 0xC0, 0x8B, 0x63, 0x82}},
    {1485, 0x1E000101, 8, {0x5E, 0x05, 0xF4, 0xBC, 0x10, 0x96, 0xDF, 0x22}},
    {1485, 0x1E000101, 6, {0x11, 0xA8, 0xBA, 0x54, 0x47, 0x42}},
};

enum { FRAMES = sizeof frames / sizeof frames[0], TYPES = 5, OWN_ID = 1, ONLY_CABLE = 0 };

/* The whole memory of the receiver, and the room for a payload. Static, since the state is too large for a small stack. */
static uint8_t state[TECELUME_RECEIVER_SIZE];
static uint8_t payload[TECELUME_OUTPUT_SIZE];

/* A transfer is checked under the signature of its type, so a subscription names both. With the 0 of a type that is not known, setup
 * would succeed and each transfer of several frames fail. */
static uint8_t *subscribe(uint8_t *record, uint32_t kind, uint32_t type_id)
{
    uint64_t signature = tecelume_signature(kind, type_id);
    if (signature == 0) {
        fprintf(stderr, "no signature of type %u\n", (unsigned)type_id);
        exit(1);
    }
    return tecelume_subscription(record, kind, type_id, signature);
}

static uint32_t setup(void)
{
    uint8_t list[TYPES * TECELUME_SUBSCRIPTION_SIZE];
    uint8_t *next = list;
    next = subscribe(next, TECELUME_KIND_MESSAGE, 341);    /* NodeStatus */
    next = subscribe(next, TECELUME_KIND_MESSAGE, 1);      /* Allocation */
    next = subscribe(next, TECELUME_KIND_MESSAGE, 16370);  /* KeyValue */
    next = subscribe(next, TECELUME_KIND_MESSAGE, 16383);  /* LogMessage */
    next = subscribe(next, TECELUME_KIND_SERVICE, 1);      /* GetNodeInfo */
    return tecelume_setup(state, sizeof state, OWN_ID, list, (size_t)(next - list));
}

static void print_bytes(const uint8_t *bytes, size_t length)
{
    for (size_t i = 0; i < length; i++)
        printf(" %02X", (unsigned)bytes[i]);
    printf("\n");
}

static void print_frame(const struct frame *f)
{
    printf("%u.%03u %08X", (unsigned)(f->milliseconds / 1000), (unsigned)(f->milliseconds % 1000), (unsigned)f->id);
    print_bytes(f->data, f->length);
}

static void print_transfer(tecelume_result result)
{
    static const char *const types[] = {"message", "request", "response"};
    printf("    %s %u from %u to %u, priority %u, transfer ID %u, %u bytes:", types[tecelume_transfer_type(result)],
           (unsigned)tecelume_type_id(result), (unsigned)tecelume_source(result), (unsigned)tecelume_destination(result),
           (unsigned)tecelume_priority(result), (unsigned)tecelume_transfer_id(result), (unsigned)tecelume_length(result));
    print_bytes(payload, tecelume_length(result));
}

static void receive(const struct frame *f)
{
    uint64_t microseconds = (uint64_t)f->milliseconds * 1000;
    tecelume_result result =
        tecelume_receive(state, sizeof state, f->id, f->data, f->length, ONLY_CABLE, microseconds, payload, sizeof payload);
    uint32_t number = tecelume_number(result);
    print_frame(f);
    printf("    %u, %s\n", (unsigned)number, tecelume_text(number));
    if (number == TECELUME_HANDED_OUT)
        print_transfer(result);
}

int main(void)
{
    if (tecelume_version() != TECELUME_VERSION) {
        fprintf(stderr, "header and library do not go together\n");
        return 1;
    }
    uint32_t number = setup();
    if (number != TECELUME_SUCCESS) {
        fprintf(stderr, "setup: %u, %s\n", (unsigned)number, tecelume_text(number));
        return 1;
    }
    for (size_t i = 0; i < FRAMES; i++)
        receive(&frames[i]);
    return 0;
}
