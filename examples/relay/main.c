/* A relay between two buses: frames come as lines on standard input (../gateway/line.h) and go out as lines on standard output. In each
 * GetNodeInfo response the mode of the node becomes maintenance: all nodes behind this relay are on a test bench. relay.h says how.
 *
 *     relay <traffic.input >traffic.sent 2>traffic.told
 *
 * On standard error it tells what it rewrote and what it did not pass on. So that one sees what the other bus gets, a receiver, node 1, takes
 * every frame that goes out, and what it hands out or finds damaged is told too.
 *
 * It is built from the C files of this folder, ../gateway/line.c and libtecelume.a, as examples/run does. In traffic.input are a response of
 * 300 bytes with messages between its frames and a frame that comes twice; one that was damaged on the way to the relay; one that is cut
 * short; and one after it. */
#include <stdio.h>
#include <string.h>

#include "../gateway/line.h"
#include "relay.h"

enum { GET_NODE_INFO = 1, NODE_STATUS = 341, OWN_ID = 1, ONLY_CABLE = 0 };
enum { STATUS_AT = 4, MODE = 7 << 3, MAINTENANCE = 2 << 3 }; /* byte 4 of a response: health in bits 6 and 7, mode in 3 to 5 */

static struct relay relay;
static uint8_t state[TECELUME_RECEIVER_SIZE];
static uint8_t payload[TECELUME_OUTPUT_SIZE];

static uint8_t in_maintenance(uint8_t status)
{
    return (uint8_t)((status & ~MODE) | MAINTENANCE);
}

/* ---- behind the relay ---- */

static bool setup_receiver(void)
{
    uint8_t list[2 * TECELUME_SUBSCRIPTION_SIZE], *next = list;
    uint64_t info = tecelume_signature(TECELUME_KIND_SERVICE, GET_NODE_INFO), status = tecelume_signature(TECELUME_KIND_MESSAGE, NODE_STATUS);
    next = tecelume_subscription(next, TECELUME_KIND_SERVICE, GET_NODE_INFO, info);
    next = tecelume_subscription(next, TECELUME_KIND_MESSAGE, NODE_STATUS, status);
    return info != 0 && status != 0 && tecelume_setup(state, sizeof state, OWN_ID, list, (size_t)(next - list)) == TECELUME_SUCCESS;
}

static void receive(const struct frame *f)
{
    tecelume_result result =
        tecelume_receive(state, sizeof state, f->id, f->data, f->length, ONLY_CABLE, f->time, payload, sizeof payload);
    uint32_t number = tecelume_number(result);
    if (number == TECELUME_HANDED_OUT && tecelume_transfer_type(result) == TECELUME_RESPONSE)
        fprintf(stderr, "received: response from node %u, %u bytes, status %02X\n", (unsigned)tecelume_source(result),
                (unsigned)tecelume_length(result), (unsigned)payload[STATUS_AT]);
    else if (number != TECELUME_HANDED_OUT && number != TECELUME_TAKEN)
        fprintf(stderr, "received: %u, %s\n", (unsigned)number, tecelume_text(number));
}

/* ---- what the relay gives ---- */

static void sent(void *self, const struct frame *f)
{
    char line[LINE_MAX_LENGTH + 2];
    (void)self;
    line_write(f, line);
    fputs(line, stdout);
    receive(f);
}

static void told(void *self, const struct rewritten *w)
{
    (void)self;
    fprintf(stderr, "rewritten: response of node %u, transfer ID %u, %u bytes, status %02X to %02X, checksum %04X to %04X\n",
            (unsigned)w->source, (unsigned)w->transfer_id, (unsigned)w->length, (unsigned)w->old_byte, (unsigned)w->new_byte,
            (unsigned)w->old_checksum, (unsigned)w->new_checksum);
}

static void dropped(void *self, const struct frame *f, const char *why)
{
    (void)self;
    fprintf(stderr, "not passed on: frame %08X, tail byte %02X: %s\n", (unsigned)f->id, (unsigned)f->data[f->length - 1], why);
}

int main(void)
{
    static const struct relay_owner owner = {sent, told, dropped, NULL};
    char line[4 * LINE_MAX_LENGTH];
    if (tecelume_version() != TECELUME_VERSION || !setup_receiver()) {
        fprintf(stderr, "header and library do not go together\n");
        return 1;
    }
    relay_setup(&relay, GET_NODE_INFO, STATUS_AT, in_maintenance, &owner);
    while (fgets(line, sizeof line, stdin) != NULL) {
        struct frame f;
        if (!line_read(line, strcspn(line, "\n"), &f)) {
            fprintf(stderr, "a line that is not well formed\n");
            continue;
        }
        relay_take(&relay, &f);
        fflush(stdout);
    }
    return 0;
}
