/* Random calls of every C entry, on buffers that show it when a call leaves them (lent.h).
 *
 *     fuzz [SEED [CALLS]]      the same seed gives the same calls
 *     fuzz --selftest guard|heap|page|read
 *
 * Each call is made twice, on equal buffers placed differently, and must give the same word and the same bytes: so nothing but the
 * arguments counts. Then what include/tecelume.h promises is checked (call.c): const inputs stay, a refusal leaves every buffer as it
 * was and all other bits of the word 0, success writes only where it may. A payload sent comes out as it went in, a frame that was
 * taken comes again, by its own interface or by another, and is passed over for the right reason, and a node that was told an ID is told
 * the same one again and shares it with no other. A checksum corrected forth and back is what it was, and a log comes back from its capture.
 * The frame that a verdict names is the first: up to it a capture passes, and with it as last it gets the same verdict.
 * What the answers must be otherwise is the business of the comparison with the second implementation.
 *
 * --selftest makes one call that says one byte too many of a buffer. Something must notice, or the runs without it show nothing. */
#include <inttypes.h>
#include <signal.h>
#include <stdio.h>
#include <stdlib.h>
#include <string.h>
#include <unistd.h>

#include "call.h"
#include "seal.h"

enum { CALLS = 400000, SHORT = 100000 }; /* fewer calls than that need not show every answer, and sweep fewer lengths */
enum { STATE_EXTRA = 40, INPUT_MAX = 1000, OUT_MAX = 1100, FRAME_LENGTH_MAX = 20, PAYLOAD_MAX = 600, SUBSCRIPTIONS = 8 };
enum { RECORDS_MAX = TECELUME_SEND_SIZE(TECELUME_PAYLOAD_MAX) };

static uint64_t seed = 1;
static uint64_t through; /* transfers sent, received and compared */
static uint64_t told_again; /* nodes that got the ID that they had */
static uint64_t returned;   /* logs that came back from their captures */
static uint64_t cut;        /* captures that were judged again, cut at the frame that was named or anywhere */

/* ---- arguments ---- */

/* Mostly a number up to the limit, else one near it or any. */
static uint32_t number_to(uint32_t limit)
{
    uint32_t which = below(40);
    return which > 1 ? below(limit + 1) : which == 1 ? limit + 1 + below(3) : (uint32_t)next_random();
}

/* Few types, so that traffic meets subscriptions. */
static uint32_t a_type(void)
{
    return once_in(10) ? number_to(65535) : below(SUBSCRIPTIONS);
}

static uint64_t signature_of(uint32_t kind, uint32_t type_id)
{
    return (uint64_t)(kind * 7919 + type_id + 1) * 0x9E3779B97F4A7C15;
}

/* For setup: now and then short, or longer than it must be. */
static size_t state_length(size_t size)
{
    return once_in(8) ? below((uint32_t)size) : once_in(8) ? size + below(STATE_EXTRA) : size;
}

enum { BLOCKS_AT = 1584 }; /* where the blocks of a receiver start */

/* Damages the numbers in front of a receiver's blocks, or anything; of other buffers anything. */
static void damage(struct buffer *b)
{
    uint32_t front = once_in(4) ? (uint32_t)b->length : BLOCKS_AT;
    for (uint32_t n = 1 + below(4); n > 0 && b->length > 0; n--)
        b->bytes[below(front) % b->length] = (uint8_t)(once_in(2) ? next_random() : below(40));
}

/* ---- the players: one receiver, one sender in place of all nodes, and the frames on their way ---- */

static struct call receiver, sender;
static uint64_t now;

struct frame {
    uint32_t id;
    size_t length;
    uint8_t data[8];
};

enum { LANES = 12, LANE_MAX = 120, LANE_SOURCES = 2 };

/* The frames of a transfer on their way. No two lanes share a source, and wild frames have others still, so each stream is one lane's. */
static struct lane {
    struct frame frames[LANE_MAX];
    size_t count, next;
    bool whole; /* correctly sent for this receiver, and all so far were taken */
    uint32_t interface_number;
    uint8_t payload[PAYLOAD_MAX];
    size_t length;
} lanes[LANES];

static uint32_t a_source(const struct lane *lane)
{
    return (uint32_t)(1 + (lane - lanes) + LANES * below(LANE_SOURCES));
}

static void none_whole(void)
{
    for (int i = 0; i < LANES; i++)
        lanes[i].whole = false;
}

static bool all_subscribed; /* as the lanes' transfers are signed */

static void setup_receiver(void)
{
    uint8_t *next = receiver.input.bytes;
    receiver.entry = SETUP;
    receiver.own = number_to(127);
    for (uint32_t i = 0; i < SUBSCRIPTIONS; i++)
        for (uint32_t kind = 0; kind < 2; kind++)
            next = tecelume_subscription(next, kind, i, signature_of(kind, i));
    receiver.input.length = (size_t)(next - receiver.input.bytes);
    all_subscribed = !once_in(4);
    if (!all_subscribed) {
        receiver.input.length = once_in(2) ? below(INPUT_MAX) : TECELUME_SUBSCRIPTION_SIZE * below(70);
        damage(&receiver.input);
    }
    receiver.state.length = state_length(TECELUME_RECEIVER_SIZE);
    fill(receiver.state.bytes, receiver.state.length);
    none_whole();
    if (tecelume_number(run(&receiver)) != TECELUME_SUCCESS)
        receiver.state.length = 0; /* set up again at the next step */
}

static void setup_map(void)
{
    sender.entry = MAP_SETUP;
    sender.state.length = state_length(TECELUME_MAP_SIZE);
    fill(sender.state.bytes, sender.state.length);
    run(&sender);
}

/* Until both are set up, as other calls of it are refused. */
static void setup_well(void)
{
    do
        setup_receiver();
    while (!all_subscribed || receiver.state.length < TECELUME_RECEIVER_SIZE);
    do
        setup_map();
    while (sender.state.length < TECELUME_MAP_SIZE);
}

static size_t payload_length(void)
{
    switch (below(4)) {
    case 0: return below(9);
    case 1: return below(100);
    case 2: return 505 + below(10);
    default: return below(PAYLOAD_MAX + 1);
    }
}

static void choose_transfer(const struct lane *lane)
{
    sender.entry = SEND;
    sender.own = once_in(8) ? 0 : once_in(40) ? 128 + below(300) : a_source(lane);
    sender.transfer_type = number_to(2);
    sender.type_id = a_type() % (sender.own == 0 ? 5 : 70000);
    sender.destination = sender.transfer_type == 0 ? (once_in(20) ? below(300) : 0) : once_in(4) ? number_to(127) : receiver.own;
    sender.priority = number_to(31);
    sender.transfer_id = number_to(31);
    sender.discriminator = number_to(16383);
    sender.signature = signature_of(sender.transfer_type > 0, sender.type_id);
    sender.time = now;
    sender.input.length = sender.own == 0 ? below(9) : payload_length();
    fill(sender.input.bytes, sender.input.length);
    size_t needed = TECELUME_SEND_SIZE(sender.input.length);
    sender.out.length = once_in(10) ? below((uint32_t)needed) : needed + (once_in(2) ? below(30) : 0);
    fill(sender.out.bytes, sender.out.length);
}

static void put_on_lane(struct lane *lane, size_t count)
{
    lane->count = count;
    lane->next = 0;
    lane->whole = all_subscribed;
    if (once_in(4))
        lane->interface_number = below(TECELUME_INTERFACES);
    lane->length = sender.input.length;
    memcpy(lane->payload, sender.input.bytes, lane->length);
    for (size_t i = 0; i < count; i++) {
        const uint8_t *record = sender.out.bytes + i * TECELUME_RECORD_SIZE;
        struct frame *f = &lane->frames[i];
        f->id = tecelume_record_id(record);
        f->length = tecelume_record_length(record);
        memcpy(f->data, tecelume_record_data(record), sizeof f->data);
    }
}

/* Sends on an empty lane, now and then with a map that was damaged. */
static void send_transfer(struct lane *lane)
{
    static struct buffer good;
    choose_transfer(lane);
    bool at_fault = once_in(10);
    if (at_fault) {
        good = sender.state;
        damage(&sender.state);
        if (once_in(4))
            sender.state.length = below(TECELUME_MAP_SIZE);
    }
    tecelume_result sent = run(&sender);
    if (tecelume_number(sent) == TECELUME_SUCCESS)
        put_on_lane(lane, tecelume_frames(sent));
    if (at_fault)
        sender.state = good;
}

/* A transfer that no sender makes: too long, or with a wrong checksum. */
static void forge_transfer(struct lane *lane)
{
    uint32_t id = below(32) << 24 | below(SUBSCRIPTIONS) << 8 | a_source(lane);
    uint8_t transfer_id = (uint8_t)below(32);
    lane->count = 2 + below(LANE_MAX - 2);
    lane->next = 0;
    lane->whole = false;
    for (size_t i = 0; i < lane->count; i++) {
        struct frame *f = &lane->frames[i];
        f->id = id;
        f->length = 8;
        fill(f->data, 7);
        f->data[7] = (uint8_t)((i == 0 ? 128 : 0) | (i + 1 == lane->count ? 64 : 0) | (i & 1) << 5 | transfer_id);
    }
}

/* Any ID, but of a source that no lane has. */
static void wild_frame(struct frame *f)
{
    uint32_t source = once_in(3) ? 0 : 127 - below(127 - LANES * LANE_SOURCES);
    f->id = ((uint32_t)next_random() & (once_in(8) ? UINT32_MAX : 0x1FFFFFFF) & ~127u) | source;
    f->length = once_in(3) ? below(sizeof f->data + 1) : sizeof f->data;
    fill(f->data, sizeof f->data);
}

/* On every other lane frames are lost, repeated and damaged. The source stays, so that it hurts this lane only. */
static struct frame disturb(struct lane *lane)
{
    struct frame f = lane->frames[lane->next++];
    if ((lane - lanes) % 2 == 0 || !once_in(12))
        return f;
    lane->whole = false;
    switch (below(5)) {
    case 0: lane->next++; break;
    case 1: lane->next--; break;
    case 2: f.data[below(8)] ^= (uint8_t)(1 << below(8)); break;
    case 3: f.id ^= 1u << (7 + below(25)); break;
    default: wild_frame(&f);
    }
    return f;
}

static void lend_frame(const struct frame *f, uint32_t interface_number)
{
    receiver.entry = RECEIVE;
    receiver.id = f->id;
    receiver.interface_number = interface_number;
    receiver.time = once_in(300) ? next_random() : now;
    receiver.input.length = f->length;
    memcpy(receiver.input.bytes, f->data, f->length);
    receiver.out.length = once_in(30) ? below(OUT_MAX) : TECELUME_OUTPUT_SIZE;
    fill(receiver.out.bytes, receiver.out.length);
}

/* Receives the frame in a state that was damaged. Mostly the good one is back after it. */
static void receive_damaged(void)
{
    static struct buffer good;
    good = receiver.state;
    damage(&receiver.state);
    if (once_in(4))
        receiver.state.length = below(TECELUME_RECEIVER_SIZE);
    uint32_t number = tecelume_number(run(&receiver));
    if (number == TECELUME_STATE_FAULT || !once_in(100)) {
        receiver.state = good;
        return;
    }
    all_subscribed = false;
    none_whole();
}

/* The last frame of a transfer of which all others were taken: it may be refused or come too late, else it hands out what was sent. */
static void judge_last(const struct lane *lane, tecelume_result result)
{
    uint32_t number = tecelume_number(result);
    if (number == TECELUME_TAKEN || number == TECELUME_PAYLOAD_TOO_LONG || number == TECELUME_CHECKSUM_DIFFERS)
        fail(&receiver, "a transfer sent correctly did not come through");
    if (number == TECELUME_HANDED_OUT &&
        (tecelume_length(result) != lane->length || memcmp(receiver.out.bytes, lane->payload, lane->length) != 0))
        fail(&receiver, "the payload handed out is not the one sent");
    through += number == TECELUME_HANDED_OUT;
}

/* The number for a repeat of a frame that was taken. */
static uint32_t repeat_number(void)
{
    bool start = (receiver.input.bytes[receiver.input.length - 1] & 128) != 0;
    bool end = (receiver.input.bytes[receiver.input.length - 1] & 64) != 0;
    if (start)
        return end ? TECELUME_WRONG_TRANSFER : TECELUME_REPEATED_START;
    return end ? TECELUME_NO_TRANSFER : TECELUME_WRONG_TOGGLE;
}

/* A frame that was taken, at the same time by its own interface or by another. */
static void receive_again(void)
{
    uint32_t shift = below(TECELUME_INTERFACES);
    bool anonymous = (receiver.id & 255) == 0;
    uint32_t expected = anonymous ? TECELUME_HANDED_OUT : shift > 0 ? TECELUME_OTHER_INTERFACE : repeat_number();
    receiver.interface_number = (receiver.interface_number + shift) % TECELUME_INTERFACES;
    if (tecelume_number(run(&receiver)) != expected)
        fail(&receiver, "a frame that came again was not passed over for the right reason");
}

static void receive_frame(struct lane *lane)
{
    struct frame f = disturb(lane);
    lend_frame(&f, lane->interface_number);
    if (once_in(20))
        receive_damaged();
    tecelume_result result = run(&receiver);
    if (tecelume_number(result) == TECELUME_OUTPUT_TOO_SMALL) { /* the same frame may be given again */
        receiver.out.length = TECELUME_OUTPUT_SIZE;
        result = run(&receiver);
    }
    if (lane->whole && lane->next == lane->count)
        judge_last(lane, result);
    lane->whole &= tecelume_number(result) == TECELUME_TAKEN;
    if (tecelume_number(result) <= TECELUME_HANDED_OUT && once_in(3))
        receive_again();
}

/* A frame with more or fewer bytes than a frame has, or of no lane. */
static void receive_wild(void)
{
    struct frame f;
    wild_frame(&f);
    lend_frame(&f, number_to(TECELUME_INTERFACES - 1));
    if (once_in(2)) {
        receiver.input.length = below(FRAME_LENGTH_MAX);
        fill(receiver.input.bytes, receiver.input.length);
    }
    run(&receiver);
}

/* Many transfers at once, whose frames go nowhere: the map fills up. */
static void crowd_map(void)
{
    for (int i = 0; i < 40; i++) {
        choose_transfer(lanes);
        sender.type_id = below(sender.transfer_type == 0 ? 65536 : 256);
        run(&sender);
    }
}

/* Long transfers of more nodes at once than there are blocks for; none of them ends. */
static void crowd_receiver(void)
{
    enum { NODES = 10, FRAMES = 60, FIRST_NODE = 1 + LANES * LANE_SOURCES };
    struct frame f = {0, 8, {0}};
    for (uint32_t i = 0; i < FRAMES; i++) {
        f.data[7] = (uint8_t)(i == 0 ? 128 : (i & 1) << 5);
        for (uint32_t node = 0; node < NODES; node++) {
            f.id = 3u << 8 | (FIRST_NODE + node);
            lend_frame(&f, 0);
            run(&receiver);
        }
    }
}

/* ---- handing out node IDs ---- */

enum { ALLOCATEES = 140, PART = 6 };

static struct call allocator;
static uint8_t unique_ids[ALLOCATEES][TECELUME_UNIQUE_ID_SIZE];
static uint32_t node_ids[ALLOCATEES]; /* what each was told since setup; 0 if nothing */
static uint32_t asking;               /* which of them is asking, */
static size_t asked;                  /* and how many of its bytes were confirmed */
static uint64_t waited;               /* before messages that were ignored came again */

static void setup_allocator(void)
{
    allocator.entry = ALLOCATOR_SETUP;
    allocator.state.length = state_length(TECELUME_ALLOCATOR_SIZE);
    fill(allocator.state.bytes, allocator.state.length);
    run(&allocator);
    fill(unique_ids[0], sizeof unique_ids);
    memset(node_ids, 0, sizeof node_ids);
    asked = 0;
}

static void judge_node_id(uint32_t node_id)
{
    uint32_t node = 0;
    while (node < ALLOCATEES && memcmp(unique_ids[node], allocator.out.bytes + 1, TECELUME_UNIQUE_ID_SIZE) != 0)
        node++;
    if (node == ALLOCATEES)
        return; /* parts of two nodes */
    if (node_ids[node] != 0 && node_ids[node] != node_id)
        fail(&allocator, "a node was told another ID than before");
    for (uint32_t i = 0; i < ALLOCATEES; i++)
        if (i != node && node_ids[i] == node_id)
            fail(&allocator, "two nodes were told one ID");
    told_again += node_ids[node] == node_id;
    node_ids[node] = node_id;
}

static void choose_message(void)
{
    size_t left = TECELUME_UNIQUE_ID_SIZE - asked, length = left < PART ? left : PART;
    allocator.entry = ALLOCATE;
    allocator.own = once_in(8) ? number_to(127) : 1;
    allocator.marks[0] = allocator.marks[1] = once_in(10) ? UINT64_MAX : 0;
    if (once_in(10))
        allocator.marks[below(2)] = next_random();
    allocator.source = once_in(20) ? number_to(127) : 0;
    allocator.time = now + waited;
    allocator.input.length = 1 + length;
    allocator.input.bytes[0] = (uint8_t)(below(128) << 1 | (asked == 0));
    memcpy(allocator.input.bytes + 1, unique_ids[asking] + asked, length);
    if (once_in(20)) {
        allocator.input.length = below(FRAME_LENGTH_MAX);
        fill(allocator.input.bytes, allocator.input.length);
    }
    allocator.out.length = once_in(10) ? below(TECELUME_REPLY_SIZE) : TECELUME_REPLY_SIZE + below(4);
    fill(allocator.out.bytes, allocator.out.length);
}

/* The call, and perhaps the same before it on a state that was damaged. */
static void ask(void)
{
    static struct buffer good;
    choose_message();
    if (once_in(10)) {
        good = allocator.state;
        damage(&allocator.state);
        if (once_in(4))
            allocator.state.length = below(TECELUME_ALLOCATOR_SIZE);
        run(&allocator);
        allocator.state = good;
    }
    tecelume_result result = run(&allocator);
    size_t length = tecelume_reply_length(result);
    if (length == TECELUME_REPLY_SIZE)
        judge_node_id(allocator.out.bytes[0] >> 1);
    waited += length == 0 ? 200000 : 0;
    asked = length > 1 && length < TECELUME_REPLY_SIZE ? length - 1 : 0;
    if (asked == 0)
        asking = below(ALLOCATEES);
}

/* It is lent no buffer. */
static void correct(void)
{
    uint32_t checksum = below(65536), old_byte = below(256), new_byte = below(256);
    uint64_t bytes_after = once_in(8) ? next_random() >> below(64) : below(512);
    tecelume_result forth = tecelume_patch(checksum, old_byte, new_byte, bytes_after);
    tecelume_result back = tecelume_patch(tecelume_checksum(forth), new_byte, old_byte, bytes_after);
    bool is_corrected = tecelume_number(forth) == TECELUME_SUCCESS && back.word == (uint64_t)checksum << 8;
    if (bytes_after > 511 ? forth.word == TECELUME_PAYLOAD_TOO_LONG : is_corrected)
        return;
    printf("seed %" PRIu64 ": %08X, byte %02X to %02X, %" PRIu64 " after, is corrected wrongly\n", seed, (unsigned)checksum, (unsigned)old_byte,
           (unsigned)new_byte, bytes_after);
    exit(1);
}

/* ---- captures ---- */

enum { LINES_MAX = 12 };

static struct call converter;

static size_t put_line(uint8_t *to)
{
    char text[64];
    int length = snprintf(text, sizeof text, "%" PRIu32 ".%03" PRIu32 " %08" PRIX32, below(once_in(2) ? 1000000000 : 100), below(1000),
                          (uint32_t)next_random());
    for (uint32_t n = below(9); n > 0; n--)
        length += snprintf(text + length, sizeof text - (size_t)length, " %02" PRIX32, below(256));
    text[length++] = '\n';
    memcpy(to, text, (size_t)length);
    return (size_t)length;
}

/* Lends room for so many bytes, or less. */
static void lend_room(size_t needed)
{
    converter.out.length = once_in(6) && needed > 0 ? below((uint32_t)needed) : needed + below(30);
    fill(converter.out.bytes, converter.out.length);
}

/* A record at fault, the checksum right or wrong; or damage anywhere. */
static void damage_capture(void)
{
    if (converter.input.length > TECELUME_TRAILER_SIZE && once_in(2)) {
        converter.input.bytes[once_in(2) ? 0 : 12] ^= (uint8_t)(once_in(2) ? 1 : 0x10);
        if (!once_in(4))
            seal(converter.input.bytes, converter.input.length);
    } else {
        damage(&converter.input);
        converter.input.length -= once_in(4) ? below((uint32_t)converter.input.length) : 0;
    }
    run(&converter);
}

/* A log to a capture, perhaps damaged before; back again, and the same damaged. */
static void convert(void)
{
    static struct buffer log;
    size_t lines = below(LINES_MAX);
    log.length = 0;
    for (size_t i = 0; i < lines; i++)
        log.length += put_line(log.bytes + log.length);
    if (once_in(4))
        damage(&log);
    converter.entry = CAPTURE;
    converter.input = log;
    lend_room(TECELUME_CAPTURE_SIZE(lines));
    tecelume_result captured = run(&converter);
    if (tecelume_number(captured) != TECELUME_SUCCESS)
        return;
    converter.entry = UNCAPTURE;
    converter.input.length = (size_t)tecelume_output_length(captured);
    memcpy(converter.input.bytes, converter.out.bytes, converter.input.length);
    lend_room(log.length);
    if (tecelume_number(run(&converter)) == TECELUME_SUCCESS) {
        if (memcmp(converter.out.bytes, log.bytes, log.length) != 0)
            fail(&converter, "a log did not come back from its capture");
        returned++;
    }
    damage_capture();
}

/* ---- checking a sender ---- */

enum { JUDGED_MAX = 300, JUDGED_SENDS = 6, JUDGED_NODES = 3, RECORD_AT = 8, LENGTH_AT = 12, DATA_AT = 13 };

static struct call judging; /* its `state` is the list of subscriptions */
static size_t recorded;

static uint8_t *stamped(size_t at)
{
    return judging.input.bytes + TECELUME_STAMPED_SIZE * at;
}

static void stamp(uint64_t time, const uint8_t *record)
{
    uint8_t *to = stamped(recorded++);
    for (size_t i = 0; i < RECORD_AT; i++)
        to[i] = (uint8_t)(time >> 8 * i);
    memcpy(to + RECORD_AT, record, TECELUME_RECORD_SIZE);
}

static void subscribe_judge(void)
{
    uint8_t *next = judging.state.bytes;
    for (uint32_t i = 0; i < SUBSCRIPTIONS; i++)
        for (uint32_t kind = 0; kind < 2; kind++)
            next = tecelume_subscription(next, kind, i, signature_of(kind, i));
    judging.state.length = (size_t)(next - judging.state.bytes);
    if (once_in(16))
        damage(&judging.state);
    if (once_in(16))
        judging.state.length = once_in(2) ? below(200) : 0;
}

/* What one node sends, on its own map, at times that never run back. */
static void record_node(uint32_t own)
{
    static uint8_t records[RECORDS_MAX], payload[TECELUME_PAYLOAD_MAX];
    uint8_t map[TECELUME_MAP_SIZE];
    uint64_t time = below(1000000);
    tecelume_map_setup(map, sizeof map);
    for (uint32_t n = below(JUDGED_SENDS); n > 0; n--) {
        uint32_t type = below(3), kind = type > 0, type_id = below(SUBSCRIPTIONS);
        size_t length = once_in(20) ? TECELUME_PAYLOAD_MAX - below(4) : below(30);
        fill(payload, length);
        time += once_in(4) ? 1999999 + below(3) : below(1000);
        tecelume_result sent = tecelume_send(map, sizeof map, own, type, type_id, kind * (1 + below(2)), below(32), payload, length,
                                             signature_of(kind, type_id), time, below(32), 0, records, sizeof records);
        if (tecelume_number(sent) == TECELUME_SUCCESS && recorded + tecelume_frames(sent) < JUDGED_MAX)
            for (size_t i = 0; i < tecelume_frames(sent); i++)
                stamp(time, records + i * TECELUME_RECORD_SIZE);
    }
}

/* A frame from each of so many nodes. */
static void record_nodes(uint32_t nodes)
{
    uint8_t record[TECELUME_RECORD_SIZE] = {0, 1, 0, 16, 1, 0xC5};
    for (uint32_t node = 1; node <= nodes; node++) {
        record[0] = (uint8_t)node;
        stamp(0, record);
    }
}

/* The longest payload, whose last frame is full and no end, or is it. */
static void record_longest(void)
{
    static uint8_t records[RECORDS_MAX];
    static const uint8_t payload[TECELUME_PAYLOAD_MAX];
    uint8_t map[TECELUME_MAP_SIZE];
    tecelume_map_setup(map, sizeof map);
    tecelume_send(map, sizeof map, 100, TECELUME_MESSAGE, 1, 0, 16, payload, sizeof payload, signature_of(0, 1), 0, 0, 0, records, sizeof records);
    for (size_t i = 0; i < TECELUME_FRAMES_MAX; i++)
        stamp(0, records + i * TECELUME_RECORD_SIZE);
    if (once_in(2))
        return;
    uint8_t *last = stamped(recorded - 1);
    last[DATA_AT + 7] = (uint8_t)(last[DATA_AT + last[LENGTH_AT] - 1] & (once_in(2) ? 0xBF : 0xFF));
    last[LENGTH_AT] = 8;
}

/* A frame is changed, lost or there twice; an end becomes none. */
static void damage_record(void)
{
    uint8_t *at = stamped(below((uint32_t)recorded)), *end = stamped(recorded);
    switch (below(4)) {
    case 0:
        memmove(at, at + TECELUME_STAMPED_SIZE, (size_t)(end - at) - TECELUME_STAMPED_SIZE);
        recorded--;
        break;
    case 1:
        memmove(at + TECELUME_STAMPED_SIZE, at, (size_t)(end - at));
        recorded++;
        break;
    case 2:
        at[LENGTH_AT] = (uint8_t)(once_in(4) ? next_random() : 8);
        at[DATA_AT + 7] &= 0x3F;
        break;
    default:
        at[RECORD_AT + below(once_in(2) ? 4 : TECELUME_RECORD_SIZE)] ^= (uint8_t)(1 << below(8));
    }
}

/* The same list and the first of the records. */
static tecelume_result judge_first(size_t records)
{
    static struct call first;
    first = judging;
    first.input.length = trail(first.input.bytes, records);
    cut++;
    return run(&first);
}

static void judge_sender(void)
{
    judging.entry = JUDGE;
    judging.out.length = 0;
    recorded = 0;
    subscribe_judge();
    if (once_in(20))
        record_nodes(62 + below(5));
    if (once_in(20))
        record_longest();
    for (uint32_t own = once_in(8) ? 0 : 1; own < JUDGED_NODES; own++)
        record_node(own);
    for (uint32_t n = below(3); n > 0 && recorded > 1; n--)
        damage_record();
    judging.input.length = trail(judging.input.bytes, recorded);
    if (once_in(16))
        damage(&judging.input);
    tecelume_result verdict = run(&judging);
    uint32_t number = tecelume_number(verdict);
    if (number == TECELUME_SETUP_REFUSED || number == TECELUME_NO_CAPTURE)
        return;
    size_t frame = (size_t)(verdict.word >> 8), first = number == TECELUME_SUCCESS ? below((uint32_t)recorded + 1) : frame;
    if (judge_first(first).word != TECELUME_SUCCESS || (number != TECELUME_SUCCESS && judge_first(frame + 1).word != verdict.word))
        fail(&judging, "the frame named is not the first after which nothing passes");
}

static void one_step(void)
{
    correct();
    now += once_in(500) ? below(3000000) : below(2000);
    if (once_in(2000) || receiver.state.length < TECELUME_RECEIVER_SIZE)
        setup_receiver();
    if (once_in(300) || sender.state.length < TECELUME_MAP_SIZE)
        setup_map();
    if (once_in(1000))
        crowd_map();
    if (once_in(10000))
        crowd_receiver();
    if (once_in(5000) || allocator.state.length < TECELUME_ALLOCATOR_SIZE)
        setup_allocator();
    if (once_in(5))
        ask();
    if (once_in(20))
        convert();
    if (once_in(30))
        judge_sender();
    struct lane *lane = &lanes[below(LANES)];
    if (once_in(20))
        receive_wild();
    else if (lane->next < lane->count)
        receive_frame(lane);
    else if (once_in(6))
        forge_transfer(lane);
    else
        send_transfer(lane);
}

/* ---- every length ---- */

/* Makes the call with 0, 1, 2 ... bytes in one of its buffers, each time from the same content. */
static void sweep(struct call *c, size_t *length, size_t to)
{
    static struct call kept;
    kept = *c;
    for (size_t n = 0; n <= to; n++) {
        *length = n;
        run(c);
        *c = kept;
    }
}

static void sweep_reception(size_t state_steps)
{
    static const struct frame single = {0x10000005, 8, {1, 2, 3, 4, 5, 6, 7, 0xC0}};
    setup_well();
    sweep(&receiver, &receiver.input.length, INPUT_MAX);
    lend_frame(&single, 0);
    receiver.out.length = TECELUME_OUTPUT_SIZE;
    sweep(&receiver, &receiver.input.length, FRAME_LENGTH_MAX);
    sweep(&receiver, &receiver.out.length, OUT_MAX);
    sweep(&receiver, &receiver.state.length, state_steps);
}

static void sweep_sending(void)
{
    sweep(&sender, &sender.state.length, TECELUME_MAP_SIZE + STATE_EXTRA);
    choose_transfer(lanes);
    sender.own = 1;
    sender.transfer_type = TECELUME_MESSAGE;
    sender.type_id = sender.destination = sender.priority = 0;
    sender.input.length = TECELUME_PAYLOAD_MAX;
    sweep(&sender, &sender.out.length, OUT_MAX);
    sender.out.length = OUT_MAX;
    sweep(&sender, &sender.input.length, PAYLOAD_MAX);
    sweep(&sender, &sender.state.length, TECELUME_MAP_SIZE + STATE_EXTRA);
}

static void sweep_allocation(size_t state_steps)
{
    do
        setup_allocator();
    while (allocator.state.length < TECELUME_ALLOCATOR_SIZE);
    sweep(&allocator, &allocator.state.length, state_steps);
    for (int i = 0; i < 9; i++) /* three nodes */
        ask();
    choose_message();
    sweep(&allocator, &allocator.input.length, FRAME_LENGTH_MAX);
    sweep(&allocator, &allocator.out.length, FRAME_LENGTH_MAX);
    sweep(&allocator, &allocator.state.length, state_steps);
}

static void sweep_captures(void)
{
    converter.entry = CAPTURE;
    converter.input.length = 0;
    for (int i = 0; i < 3; i++)
        converter.input.length += put_line(converter.input.bytes + converter.input.length);
    size_t length = converter.input.length;
    converter.out.length = TECELUME_CAPTURE_SIZE(3);
    sweep(&converter, &converter.input.length, length);
    sweep(&converter, &converter.out.length, TECELUME_CAPTURE_SIZE(4));
    run(&converter);
    converter.entry = UNCAPTURE;
    converter.input = converter.out;
    sweep(&converter, &converter.out.length, length + FRAME_LENGTH_MAX);
    converter.out.length = TECELUME_LOG_SIZE(3);
    sweep(&converter, &converter.input.length, TECELUME_CAPTURE_SIZE(3));
}

static void sweep_judge(void)
{
    do
        judge_sender();
    while (recorded < 2 || recorded > 20);
    size_t length = judging.input.length;
    sweep(&judging, &judging.input.length, length);
    sweep(&judging, &judging.state.length, TECELUME_SUBSCRIPTION_SIZE * (TECELUME_SUBSCRIPTIONS_MAX + 2));
}

/* ---- memory that nobody wrote before: valgrind sees it if a call decides on such a byte ---- */

static bool goes_through(uint8_t *map, uint8_t *state, uint8_t *records, uint8_t *out)
{
    static const uint8_t payload[] = "a payload of several frames";
    uint8_t list[TECELUME_SUBSCRIPTION_SIZE];
    tecelume_result last = {0};
    tecelume_subscription(list, TECELUME_KIND_MESSAGE, 1, signature_of(0, 1));
    if (tecelume_map_setup(map, TECELUME_MAP_SIZE) != 0 || tecelume_setup(state, TECELUME_RECEIVER_SIZE, 1, list, sizeof list) != 0)
        return false;
    tecelume_result sent = tecelume_send(map, TECELUME_MAP_SIZE, 2, TECELUME_MESSAGE, 1, 0, 0, payload, sizeof payload, signature_of(0, 1),
                                         0, 0, 0, records, RECORDS_MAX);
    for (size_t i = 0; i < tecelume_frames(sent); i++) {
        const uint8_t *record = records + i * TECELUME_RECORD_SIZE;
        last = tecelume_receive(state, TECELUME_RECEIVER_SIZE, tecelume_record_id(record), tecelume_record_data(record),
                                tecelume_record_length(record), 0, 0, out, TECELUME_OUTPUT_SIZE);
    }
    return tecelume_length(last) == sizeof payload && memcmp(out, payload, sizeof payload) == 0;
}

/* A whole unique ID in one message gets an ID. */
static bool hands_out(uint8_t *state, uint8_t *out)
{
    static const uint8_t payload[1 + TECELUME_UNIQUE_ID_SIZE] = {1};
    return tecelume_allocator_setup(state, TECELUME_ALLOCATOR_SIZE) == 0 &&
           tecelume_reply_length(tecelume_allocate(state, TECELUME_ALLOCATOR_SIZE, 1, 0, 0, 0, payload, sizeof payload, 0, out,
                                                   TECELUME_REPLY_SIZE)) == TECELUME_REPLY_SIZE &&
           out[0] == 2 * TECELUME_ALLOCATIONS_MAX;
}

static void use_fresh_memory(void)
{
    uint8_t *map = (uint8_t *)malloc(TECELUME_MAP_SIZE), *state = (uint8_t *)malloc(TECELUME_RECEIVER_SIZE);
    uint8_t *records = (uint8_t *)malloc(RECORDS_MAX), *out = (uint8_t *)malloc(TECELUME_OUTPUT_SIZE);
    /* the reply's first byte is put together in place from seven bits and one, bit arithmetic that valgrind does not follow */
    uint8_t *table = (uint8_t *)malloc(TECELUME_ALLOCATOR_SIZE), *reply = (uint8_t *)calloc(TECELUME_REPLY_SIZE, 1);
    if (map == NULL || state == NULL || records == NULL || out == NULL || !goes_through(map, state, records, out))
        fail(&receiver, "on fresh memory nothing goes through");
    if (table == NULL || reply == NULL || !hands_out(table, reply))
        fail(&allocator, "on fresh memory no node ID is given");
    free(map);
    free(state);
    free(records);
    free(out);
    free(table);
    free(reply);
}

/* ---- a lie, and all the rest ---- */

/* A fault in the midst of a call. Nothing is left to save, so that what a handler may not do does no harm. */
static void on_fault(int signal_number)
{
    (void)signal_number;
    printf("seed %" PRIu64 ", call %" PRIu64 ": memory was touched that no one may touch\n", seed, calls_made());
    fflush(stdout);
    _exit(1);
}

/* Says that a frame has a byte more than the heap block that holds it: the call reads that byte as the tail. */
static int lie_reading(void)
{
    static const uint8_t data[] = {1, 2, 3};
    setup_well();
    struct lent frame = lend(ON_HEAP, data, sizeof data, 1);
    tecelume_receive(receiver.state.bytes, TECELUME_RECEIVER_SIZE, 0x10000005, frame.bytes, sizeof data + 1, 0, 0, receiver.out.bytes,
                     TECELUME_OUTPUT_SIZE);
    return 0;
}

/* Says that a map is as long as it must be, though a byte is missing: setup writes that byte. 1 if the guards show it. */
static int lie(const char *name)
{
    static const uint8_t zeros[TECELUME_MAP_SIZE];
    if (strcmp(name, "read") == 0)
        return lie_reading();
    enum placement placement = strcmp(name, "guard") == 0 ? BETWEEN : strcmp(name, "heap") == 0 ? ON_HEAP : AT_PAGE;
    struct lent map = lend(placement, zeros, sizeof zeros - 1, 1);
    tecelume_map_setup(map.bytes, TECELUME_MAP_SIZE);
    if (guards_stay(&map))
        return 0;
    printf("bytes beside a lent buffer were written\n");
    return 1;
}

int main(int count, char **words)
{
    signal(SIGSEGV, on_fault);
    if (count == 3 && strcmp(words[1], "--selftest") == 0)
        return lie(words[2]);
    if (count > 1)
        seed = strtoull(words[1], NULL, 10);
    uint64_t most = count > 2 ? strtoull(words[2], NULL, 10) : CALLS;
    random_start(seed);
    use_fresh_memory();
    sweep_reception(most < SHORT ? 100 : TECELUME_RECEIVER_SIZE + STATE_EXTRA);
    sweep_sending();
    sweep_allocation(most < SHORT ? 100 : TECELUME_ALLOCATOR_SIZE + STATE_EXTRA);
    sweep_captures();
    sweep_judge();
    for (uint64_t swept = calls_made(); calls_made() - swept < most;)
        one_step();
    printf("seed %" PRIu64 ": %" PRIu64 " calls, each made twice; %" PRIu64 " transfers went through, %" PRIu64
           " nodes got their ID again, %" PRIu64 " logs came back, %" PRIu64 " captures were judged again\n",
           seed, calls_made(), through, told_again, returned, cut);
    if (show_answers() || most < SHORT)
        return 0;
    printf("an answer was never seen\n");
    return 1;
}
