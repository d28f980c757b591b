#include "node.h"

#include <string.h>

static const uint8_t unique_id[TECELUME_UNIQUE_ID_SIZE] = {
    0xA0, 0xA1, 0xA2, 0xA3, 0xA4, 0xA5, 0xA6, 0xA7, 0xA8, 0xA9, 0xAA, 0xAB, 0xAC, 0xAD, 0xAE, 0xAF,
};

/* What the node says of itself, as a payload. Its status stays 0: all is well, operational. */
static tecelume_result node_info(uint64_t time, uint8_t *out, size_t out_len)
{
    tecelume_get_node_info_response info;
    memset(&info, 0, sizeof info);
    info.status.uptime_sec = (uint32_t)(time / 1000000);
    info.software_version.major = 1;
    info.hardware_version.major = 1;
    info.hardware_version.unique_id = tecelume_list(unique_id, sizeof unique_id);
    info.name = tecelume_list("tecelume.gateway", strlen("tecelume.gateway"));
    return tecelume_encode_get_node_info_response(&info, out, out_len);
}

static uint32_t setup_receiver(struct node *n)
{
    uint8_t list[3 * TECELUME_SUBSCRIPTION_SIZE];
    uint8_t *next = list;
    uint64_t status = tecelume_signature(TECELUME_KIND_MESSAGE, TECELUME_NODE_STATUS);
    uint64_t info = tecelume_signature(TECELUME_KIND_SERVICE, TECELUME_GET_NODE_INFO);
    uint64_t allocation = tecelume_signature(TECELUME_KIND_MESSAGE, TECELUME_ALLOCATION);
    if (status == 0 || info == 0 || allocation == 0)
        return TECELUME_SETUP_REFUSED; /* tecelume_setup would take them, and transfers of several frames would fail */
    next = tecelume_subscription(next, TECELUME_KIND_MESSAGE, TECELUME_NODE_STATUS, status);
    next = tecelume_subscription(next, TECELUME_KIND_SERVICE, TECELUME_GET_NODE_INFO, info);
    if (n->owner.given != NULL)
        next = tecelume_subscription(next, TECELUME_KIND_MESSAGE, TECELUME_ALLOCATION, allocation);
    return tecelume_setup(n->state, sizeof n->state, n->own, list, (size_t)(next - list));
}

uint32_t node_setup(struct node *n, uint32_t own, const struct owner *owner)
{
    memset(n, 0, sizeof *n);
    n->owner = *owner;
    n->own = own;
    tecelume_map_setup(n->map, sizeof n->map); /* it cannot be too short, nor can the allocator's state */
    tecelume_allocator_setup(n->allocator, sizeof n->allocator);
    return setup_receiver(n);
}

/* A node that was heard of has its ID by hand, if it is not in the table. */
static void mark_static(struct node *n, uint32_t source)
{
    for (size_t i = 0; i < tecelume_allocations(n->allocator); i++)
        if (tecelume_allocation_node_id(n->allocator, i) == source)
            return;
    tecelume_mark(n->marks, source);
}

static void tell(struct node *n, tecelume_result transfer)
{
    uint32_t source = tecelume_source(transfer);
    tecelume_node_status status;
    if (tecelume_decode_node_status(n->payload, tecelume_length(transfer), &status) != TECELUME_SUCCESS) {
        n->refused++;
        return;
    }
    mark_static(n, source);
    n->owner.told(n->owner.self, source, &status);
}

/* Gives the records of a transfer to the owner as frames. */
static void send_records(struct node *n, size_t count, uint64_t time)
{
    for (size_t i = 0; i < count; i++) {
        const uint8_t *record = n->records + i * TECELUME_RECORD_SIZE;
        struct frame f;
        f.time = time;
        f.id = tecelume_record_id(record);
        f.length = tecelume_record_length(record);
        memcpy(f.data, tecelume_record_data(record), sizeof f.data);
        n->owner.sent(n->owner.self, &f);
    }
}

/* A response goes to whom the request came from, with the request's transfer ID and priority. */
static void answer(struct node *n, tecelume_result request, uint64_t time)
{
    uint8_t payload[TECELUME_GET_NODE_INFO_RESPONSE_SIZE] = {0}; /* for memory checkers: bytes of several fields are put together bit by bit */
    size_t length = tecelume_length(node_info(time, payload, sizeof payload)); /* nothing in it can be refused */
    tecelume_result result = tecelume_send(n->map, sizeof n->map, n->own, TECELUME_RESPONSE, TECELUME_GET_NODE_INFO,
                                           tecelume_source(request), tecelume_priority(request), payload, length,
                                           tecelume_signature(TECELUME_KIND_SERVICE, TECELUME_GET_NODE_INFO), time,
                                           tecelume_transfer_id(request), 0, n->records, sizeof n->records);
    if (tecelume_number(result) != TECELUME_SUCCESS)
        n->refused++;
    send_records(n, tecelume_frames(result), time);
}

/* A reply is a message, for the node that asks is known by its unique ID only. */
static void reply(struct node *n, const uint8_t *message, size_t length, uint32_t priority, uint64_t time)
{
    tecelume_result result = tecelume_send(n->map, sizeof n->map, n->own, TECELUME_MESSAGE, TECELUME_ALLOCATION, 0, priority, message,
                                           length, tecelume_signature(TECELUME_KIND_MESSAGE, TECELUME_ALLOCATION), time, 0, 0, n->records,
                                           sizeof n->records);
    if (tecelume_number(result) != TECELUME_SUCCESS)
        n->refused++;
    send_records(n, tecelume_frames(result), time);
}

/* Whether there is a reply to send. One with a node ID in it, in front of the whole unique ID, the owner has to agree to. */
static bool may_reply(struct node *n, const uint8_t *message, size_t length)
{
    tecelume_allocation reply;
    if (tecelume_decode_allocation(message, length, &reply) != TECELUME_SUCCESS)
        return false; /* it has no bytes */
    return reply.node_id == 0 || n->owner.given(n->owner.self, reply.node_id, reply.unique_id.at);
}

static void allocate(struct node *n, tecelume_result request, uint64_t time)
{
    uint8_t message[TECELUME_REPLY_SIZE] = {0}; /* for memory checkers: its first byte is put together bit by bit */
    tecelume_result result = tecelume_allocate(n->allocator, sizeof n->allocator, n->own, n->marks[0], n->marks[1],
                                               tecelume_source(request), n->payload, tecelume_length(request), time, message,
                                               sizeof message);
    size_t length = tecelume_reply_length(result);
    if (tecelume_number(result) == TECELUME_NONE_FREE)
        n->turned_away++;
    else if (tecelume_number(result) != TECELUME_SUCCESS)
        n->refused++;
    if (may_reply(n, message, length))
        reply(n, message, length, tecelume_priority(request), time);
}

static void take(struct node *n, tecelume_result transfer, uint64_t time)
{
    if (tecelume_transfer_type(transfer) == TECELUME_MESSAGE && tecelume_type_id(transfer) == TECELUME_ALLOCATION)
        allocate(n, transfer, time);
    else if (tecelume_transfer_type(transfer) == TECELUME_MESSAGE)
        tell(n, transfer);
    else if (tecelume_transfer_type(transfer) == TECELUME_REQUEST
             && tecelume_decode_get_node_info_request(n->payload, tecelume_length(transfer)) == TECELUME_SUCCESS)
        answer(n, transfer, time);
    else
        n->refused++; /* a request with a payload, or a response, and this node asks nobody */
}

void node_receive(struct node *n, uint32_t interface_number, const struct frame *f)
{
    tecelume_result result = tecelume_receive(n->state, sizeof n->state, f->id, f->data, f->length, interface_number, f->time, n->payload,
                                              sizeof n->payload);
    uint32_t number = tecelume_number(result);
    n->answers[number]++;
    if (number == TECELUME_HANDED_OUT)
        take(n, result, f->time);
    else if (number == TECELUME_STATE_FAULT)
        setup_receiver(n); /* someone else wrote there */
}
