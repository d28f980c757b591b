/* Tries what include/tecelume.h says in words.
 *
 *     header             every sentence
 *     header SENTENCE    the one of that name
 *     header --list      their names
 *
 * The first that does not hold is printed, with status 1. Those of correcting a checksum are in patch.c, those of
 * handing out node IDs in allocator.c, those of messages in payloads.c. wrong.c and wrong_payloads.c make libraries that
 * break them. */
#include <stdbool.h>
#include <stdio.h>
#include <stdlib.h>
#include <string.h>

#include "sentence.h"
#include "tecelume.h"

enum { START = 0x80, END = 0x40, TOGGLE = 0x20, SINGLE = START | END, TRANSFER_ID = 31 };
enum { TYPE = 1000, OTHER_TYPE = 1001, SERVICE = 7, OWN = 1, SOURCE = 42, SPARE = 99 };
enum { ONE_SECOND = 1000000, TWO_SECONDS = 2000000, TRANSFER_IDS = 32, LONGEST = TECELUME_PAYLOAD_MAX };

static const uint64_t signature = 0x0123456789ABCDEF, wrap = (uint64_t)1 << 32;

static uint8_t state[TECELUME_RECEIVER_SIZE], map[TECELUME_MAP_SIZE];
static uint8_t out[TECELUME_OUTPUT_SIZE], records[TECELUME_SEND_SIZE(LONGEST)];

static const char *sentence;

void check(bool holds, const char *what, int line)
{
    if (holds)
        return;
    printf("%s: does not hold in line %d: %s\n", sentence, line, what);
    exit(1);
}

/* ---- calls, each with what is said of every one: what a number leaves as it was ---- */

static bool changes_nothing(uint32_t number)
{
    return (number >= TECELUME_ID_TOO_LARGE && number <= TECELUME_TABLE_FULL) || number == TECELUME_NO_INTERFACE ||
           number == TECELUME_STATE_FAULT || (number >= TECELUME_WRONG_TOGGLE && number <= TECELUME_OTHER_INTERFACE);
}

/* A frame that comes by an interface, and the room that it gets. */
struct way {
    uint32_t interface_number;
    size_t room;
};

static const struct way only_cable = {0, sizeof out};

static tecelume_result receive_by(struct way by, uint32_t id, const uint8_t *data, size_t length, uint64_t time)
{
    static uint8_t state_before[sizeof state], out_before[sizeof out];
    memcpy(state_before, state, sizeof state);
    memset(out, 0xA5, sizeof out);
    memcpy(out_before, out, sizeof out);
    tecelume_result result = tecelume_receive(state, sizeof state, id, data, length, by.interface_number, time, out, by.room);
    size_t written = tecelume_length(result);
    CHECK(written <= sizeof out && memcmp(out + written, out_before + written, sizeof out - written) == 0);
    CHECK(!changes_nothing(tecelume_number(result)) || memcmp(state, state_before, sizeof state) == 0);
    return result;
}

static uint32_t message_id(uint32_t type_id, uint32_t source)
{
    return 16u << 24 | type_id << 8 | source;
}

/* The number for a frame with eight data bytes, seven of them zero. */
static uint32_t frame_by(uint32_t interface_number, uint32_t source, unsigned tail, uint64_t time)
{
    struct way by = {interface_number, sizeof out};
    uint8_t data[8] = {0};
    data[7] = (uint8_t)tail;
    return tecelume_number(receive_by(by, message_id(TYPE, source), data, sizeof data, time));
}

static uint32_t frame(uint32_t source, unsigned tail, uint64_t time)
{
    return frame_by(0, source, tail, time);
}

/* What a send takes, but for its buffers. */
struct topic {
    uint32_t own, transfer_type, type_id, destination, transfer_id;
};

static struct topic message(uint32_t type_id)
{
    struct topic t = {SOURCE, TECELUME_MESSAGE, 0, 0, 0};
    t.type_id = type_id;
    return t;
}

static tecelume_result send_signed(const struct topic *t, size_t length, uint64_t under, uint64_t time, size_t room)
{
    static const uint8_t payload[LONGEST + 1] = {0};
    static uint8_t map_before[sizeof map], records_before[sizeof records];
    memcpy(map_before, map, sizeof map);
    memset(records, 0x5A, sizeof records);
    memcpy(records_before, records, sizeof records);
    tecelume_result result = tecelume_send(map, sizeof map, t->own, t->transfer_type, t->type_id, t->destination, 16, payload, length,
                                           under, time, t->transfer_id, 0, records, room);
    size_t written = tecelume_frames(result) * TECELUME_RECORD_SIZE;
    CHECK(written <= sizeof records && memcmp(records + written, records_before + written, sizeof records - written) == 0);
    CHECK(tecelume_number(result) == TECELUME_SUCCESS || memcmp(map, map_before, sizeof map) == 0);
    return result;
}

static tecelume_result send_topic(const struct topic *t, uint64_t time)
{
    return send_signed(t, 0, signature, time, sizeof records);
}

static uint32_t send_message(uint32_t type_id, uint64_t time)
{
    struct topic t = message(type_id);
    return tecelume_number(send_topic(&t, time));
}

/* Gives a record of the last send to the receiver. */
static tecelume_result carry_record(size_t index, uint64_t time)
{
    const uint8_t *record = records + index * TECELUME_RECORD_SIZE;
    return receive_by(only_cable, tecelume_record_id(record), tecelume_record_data(record), tecelume_record_length(record), time);
}

/* Gives so many of them; the result of the last one, the others are taken. */
static tecelume_result carry(size_t count, uint64_t time)
{
    tecelume_result result = {0};
    for (size_t i = 0; i < count; i++) {
        CHECK(tecelume_number(result) == TECELUME_TAKEN);
        result = carry_record(i, time);
    }
    return result;
}

/* ---- beginnings ---- */

static uint32_t setup_under(uint64_t under)
{
    uint8_t list[2 * TECELUME_SUBSCRIPTION_SIZE];
    uint8_t *next = tecelume_subscription(list, TECELUME_KIND_MESSAGE, TYPE, under);
    tecelume_subscription(next, TECELUME_KIND_SERVICE, SERVICE, under);
    return tecelume_setup(state, sizeof state, OWN, list, sizeof list);
}

static void begin(void)
{
    CHECK(setup_under(signature) == TECELUME_SUCCESS);
    CHECK(tecelume_map_setup(map, sizeof map) == TECELUME_SUCCESS);
}

/* A receiver with a single frame from each of the sources 1 to 32, a map with the message types 0 to 31. */
static void begin_full(uint64_t time)
{
    begin();
    for (uint32_t source = 1; source <= TECELUME_SESSIONS_MAX; source++)
        CHECK(frame(source, SINGLE, time) == TECELUME_HANDED_OUT);
    for (uint32_t type_id = 0; type_id < TECELUME_MAP_ENTRIES_MAX; type_id++)
        CHECK(send_message(type_id, time) == TECELUME_SUCCESS);
}

/* ---- sentences ---- */

static void header_and_library(void)
{
    CHECK(tecelume_version() == TECELUME_VERSION);
    CHECK(TECELUME_VERSION >> 16 == TECELUME_VERSION_MAJOR);
    CHECK((TECELUME_VERSION >> 8 & 255) == TECELUME_VERSION_MINOR && (TECELUME_VERSION & 255) == TECELUME_VERSION_PATCH);
    CHECK(tecelume_receiver_size() == TECELUME_RECEIVER_SIZE);
    CHECK(tecelume_map_size() == TECELUME_MAP_SIZE);
    CHECK(tecelume_setup(state, sizeof state - 1, OWN, NULL, 0) == TECELUME_STATE_FAULT);
    CHECK(tecelume_map_setup(map, sizeof map - 1) == TECELUME_STATE_FAULT);
}

/* Old counts from the last start that was taken: not from a later frame, nor from a start that was passed over. */
static void old_from_last_start_taken(void)
{
    begin();
    CHECK(frame(SOURCE, START, 0) == TECELUME_TAKEN);
    CHECK(frame(SOURCE, TOGGLE, 1500000) == TECELUME_TAKEN);
    CHECK(frame(SOURCE, 0, TWO_SECONDS + 1) == TECELUME_NO_TRANSFER);
    begin();
    CHECK(frame(SOURCE, START, 0) == TECELUME_TAKEN);
    CHECK(frame(SOURCE, START, 900000) == TECELUME_REPEATED_START);
    CHECK(frame(SOURCE, TOGGLE, TWO_SECONDS + 1) == TECELUME_NO_TRANSFER);
    begin();
    CHECK(frame(SOURCE, SINGLE, 0) == TECELUME_HANDED_OUT);
    CHECK(frame(SOURCE, START | 1, 1500000) == TECELUME_TAKEN);
    CHECK(frame(SOURCE, TOGGLE | 1, TWO_SECONDS + 1) == TECELUME_TAKEN);
}

static void session_at_two_seconds(void)
{
    begin();
    CHECK(frame(SOURCE, START, 0) == TECELUME_TAKEN);
    CHECK(frame(SOURCE, TOGGLE, TWO_SECONDS) == TECELUME_TAKEN);
    begin_full(0);
    CHECK(frame(SPARE, SINGLE, TWO_SECONDS) == TECELUME_TABLE_FULL);
    CHECK(frame(SPARE, SINGLE, TWO_SECONDS + 1) == TECELUME_HANDED_OUT);
}

/* Copies come right after each frame, and four transfers late. */
static void handed_out_once(void)
{
    begin();
    for (unsigned id = 0; id < 4; id++) {
        CHECK(frame_by(1, SOURCE, START | id, id) == TECELUME_TAKEN);
        CHECK(frame_by(2, SOURCE, START | id, id) == TECELUME_OTHER_INTERFACE);
        CHECK(frame_by(1, SOURCE, TOGGLE | id, id) == TECELUME_TAKEN);
        CHECK(frame_by(0, SOURCE, TOGGLE | id, id) == TECELUME_OTHER_INTERFACE);
        CHECK(frame_by(0, SOURCE, END | id, id) == TECELUME_OTHER_INTERFACE);
        CHECK(frame_by(1, SOURCE, END | id, id) == TECELUME_CHECKSUM_DIFFERS);
        CHECK(frame_by(1, SOURCE + 1, SINGLE | id, id) == TECELUME_HANDED_OUT);
    }
    for (unsigned id = 0; id < 4; id++)
        CHECK(frame_by(2, SOURCE + 1, SINGLE | id, 4) == TECELUME_OTHER_INTERFACE);
}

/* From then on the other interface is followed, and not the first one. */
static void switch_after_one_second(void)
{
    begin();
    CHECK(frame_by(0, SOURCE, START, 0) == TECELUME_TAKEN);
    CHECK(frame_by(1, SOURCE, START | 1, ONE_SECOND) == TECELUME_OTHER_INTERFACE);
    CHECK(frame_by(1, SOURCE, TOGGLE, ONE_SECOND + 1) == TECELUME_OTHER_INTERFACE);
    CHECK(frame_by(1, SOURCE, START | 1, ONE_SECOND + 1) == TECELUME_TAKEN);
    CHECK(frame_by(0, SOURCE, TOGGLE | 1, ONE_SECOND + 2) == TECELUME_OTHER_INTERFACE);
    CHECK(frame_by(1, SOURCE, TOGGLE | 1, ONE_SECOND + 2) == TECELUME_TAKEN);
    CHECK(frame_by(0, SOURCE, START | 3, ONE_SECOND + 2) == TECELUME_OTHER_INTERFACE);
    CHECK(frame_by(1, SOURCE, START | 3, ONE_SECOND + 2) == TECELUME_TAKEN);
}

/* After a single frame with transfer ID 3, 4 is expected. */
static void switch_by_transfer_id(void)
{
    for (unsigned id = 0; id < TRANSFER_IDS; id++) {
        begin();
        CHECK(frame_by(0, SOURCE, SINGLE | 3, 0) == TECELUME_HANDED_OUT);
        CHECK(frame_by(2, SOURCE, SINGLE | id, TWO_SECONDS) == (id >= 4 && id < 20 ? TECELUME_HANDED_OUT : TECELUME_OTHER_INTERFACE));
        begin();
        CHECK(frame_by(0, SOURCE, SINGLE | 3, 0) == TECELUME_HANDED_OUT);
        CHECK(frame_by(2, SOURCE, SINGLE | id, TWO_SECONDS + 1) == TECELUME_HANDED_OUT);
    }
}

static void anonymous_by_each_interface(void)
{
    const uint8_t tail = SINGLE;
    uint8_t list[TECELUME_SUBSCRIPTION_SIZE];
    tecelume_subscription(list, TECELUME_KIND_MESSAGE, 1, signature);
    CHECK(tecelume_setup(state, sizeof state, OWN, list, sizeof list) == TECELUME_SUCCESS);
    for (uint32_t i = 0; i < 2 * TECELUME_INTERFACES; i++) {
        struct way by = {i % TECELUME_INTERFACES, sizeof out};
        CHECK(tecelume_number(receive_by(by, message_id(1, 0), &tail, 1, 0)) == TECELUME_HANDED_OUT);
    }
}

static void repeat_on_one_cable(void)
{
    begin();
    CHECK(frame(SOURCE, START, 0) == TECELUME_TAKEN);
    CHECK(frame(SOURCE, TOGGLE, 0) == TECELUME_TAKEN);
    CHECK(frame(SOURCE, START, ONE_SECOND) == TECELUME_REPEATED_START);
    CHECK(frame(SOURCE, START, ONE_SECOND + 1) == TECELUME_TAKEN);
    CHECK(frame(SOURCE, 0, ONE_SECOND + 1) == TECELUME_WRONG_TOGGLE);
    CHECK(frame(SOURCE, TOGGLE, ONE_SECOND + 1) == TECELUME_TAKEN);
    CHECK(frame(SOURCE, SINGLE, TWO_SECONDS + 1) == TECELUME_REPEATED_START);
    CHECK(frame(SOURCE, SINGLE, TWO_SECONDS + 2) == TECELUME_HANDED_OUT);
    CHECK(frame(SOURCE, SINGLE, TWO_SECONDS + 3 + ONE_SECOND) == TECELUME_WRONG_TRANSFER);
}

/* Every frame of a transfer comes twice, the start once more; the transfer is handed out all the same. */
static void repeats(void)
{
    struct topic t = message(TYPE);
    begin();
    CHECK(tecelume_frames(send_signed(&t, 20, signature, 0, sizeof records)) == 4);
    for (size_t i = 0; i < 3; i++) {
        CHECK(tecelume_number(carry_record(i, 0)) == TECELUME_TAKEN);
        CHECK(tecelume_number(carry_record(i, 0)) == (i == 0 ? TECELUME_REPEATED_START : TECELUME_WRONG_TOGGLE));
        CHECK(tecelume_number(carry_record(0, 0)) == TECELUME_REPEATED_START);
    }
    CHECK(tecelume_number(carry_record(3, 0)) == TECELUME_HANDED_OUT);
    CHECK(tecelume_number(carry_record(3, 0)) == TECELUME_NO_TRANSFER);
    CHECK(tecelume_number(carry_record(0, 0)) == TECELUME_WRONG_TRANSFER);
}

/* The second frame of four is lost, then a start, then the rest of one transfer and the start of the next. */
static void losses(void)
{
    struct topic t = message(TYPE);
    begin();
    CHECK(tecelume_frames(send_signed(&t, 20, signature, 0, sizeof records)) == 4);
    CHECK(tecelume_number(carry_record(0, 0)) == TECELUME_TAKEN);
    CHECK(tecelume_number(carry_record(2, 0)) == TECELUME_WRONG_TOGGLE);
    CHECK(tecelume_number(carry_record(3, 0)) == TECELUME_CHECKSUM_DIFFERS);
    CHECK(tecelume_frames(send_signed(&t, 20, signature, 0, sizeof records)) == 4);
    for (size_t i = 1; i < 4; i++)
        CHECK(tecelume_number(carry_record(i, 0)) == TECELUME_NO_TRANSFER);
    CHECK(tecelume_frames(send_signed(&t, 20, signature, 0, sizeof records)) == 4);
    CHECK(tecelume_number(carry(2, 0)) == TECELUME_TAKEN);
    CHECK(tecelume_frames(send_signed(&t, 20, signature, 0, sizeof records)) == 4);
    for (size_t i = 1; i < 4; i++)
        CHECK(tecelume_number(carry_record(i, 0)) == TECELUME_WRONG_TRANSFER);
    CHECK(tecelume_number(carry(4, 0)) == TECELUME_HANDED_OUT);
}

/* By 8, and by 9. */
static void rest_after_a_refused_start(void)
{
    const struct way short_room = {0, sizeof out - 1};
    const uint8_t data[8] = {0, 0, 0, 0, 0, 0, 0, START};
    begin();
    CHECK(tecelume_number(receive_by(short_room, message_id(TYPE, SOURCE), data, sizeof data, 0)) == TECELUME_OUTPUT_TOO_SMALL);
    CHECK(frame(SOURCE, TOGGLE, 0) == TECELUME_NO_TRANSFER);
    begin_full(0);
    CHECK(frame(SPARE, START, 0) == TECELUME_TABLE_FULL);
    CHECK(frame(SPARE, TOGGLE, 0) == TECELUME_NO_TRANSFER);
}

/* Transfer 4 is expected by interface 0: in hand with toggle 1, then with nothing in hand, then by an old session. Several reasons apply to
 * most frames. */
static void reasons_in_order(void)
{
    static uint8_t kept[sizeof state];
    begin();
    CHECK(frame(SOURCE, START | 4, 0) == TECELUME_TAKEN);
    CHECK(frame_by(1, SOURCE, START | 3, 0) == TECELUME_OTHER_INTERFACE && frame_by(1, SOURCE, START | 4, 0) == TECELUME_OTHER_INTERFACE);
    CHECK(frame(SOURCE, START | 3, 0) == TECELUME_WRONG_TRANSFER && frame(SOURCE, START | 4, 0) == TECELUME_REPEATED_START);
    CHECK(frame_by(1, SOURCE, 3, 0) == TECELUME_OTHER_INTERFACE && frame_by(1, SOURCE, TOGGLE | 4, 0) == TECELUME_OTHER_INTERFACE);
    CHECK(frame(SOURCE, 3, 0) == TECELUME_WRONG_TRANSFER && frame(SOURCE, TOGGLE | 3, 0) == TECELUME_WRONG_TRANSFER);
    CHECK(frame(SOURCE, 4, 0) == TECELUME_WRONG_TOGGLE && frame(SOURCE, TOGGLE | 4, 0) == TECELUME_TAKEN);
    begin();
    CHECK(frame(SOURCE, SINGLE | 3, 0) == TECELUME_HANDED_OUT);
    memcpy(kept, state, sizeof state);
    CHECK(frame_by(1, SOURCE, START | 4, 0) == TECELUME_OTHER_INTERFACE && frame(SOURCE, START | 3, 0) == TECELUME_WRONG_TRANSFER);
    CHECK(frame_by(1, SOURCE, TOGGLE | 9, 0) == TECELUME_OTHER_INTERFACE && frame_by(1, SOURCE, 4, 0) == TECELUME_OTHER_INTERFACE);
    CHECK(frame(SOURCE, TOGGLE | 9, 0) == TECELUME_NO_TRANSFER && frame(SOURCE, 4, TWO_SECONDS) == TECELUME_NO_TRANSFER);
    CHECK(memcmp(state, kept, sizeof state) == 0);
    CHECK(frame_by(1, SOURCE, 4, TWO_SECONDS + 1) == TECELUME_NO_TRANSFER && memcmp(state, kept, sizeof state) != 0);
    CHECK(frame_by(2, SOURCE, TOGGLE | 9, TWO_SECONDS + 1) == TECELUME_NO_TRANSFER);
}

static void texts(void)
{
    for (uint32_t number = 0; number < 40; number++) {
        bool known = (number <= TECELUME_NO_SUCH_CASE && number != 10) ||
                     (number >= TECELUME_NO_TRANSFER && number <= TECELUME_OTHER_INTERFACE);
        CHECK(known == (strcmp(tecelume_text(number), "unknown number") != 0));
        CHECK((number >= TECELUME_NO_TRANSFER && known) == (strncmp(tecelume_text(number), "passed over", 11) == 0));
    }
    CHECK(strcmp(tecelume_text(TECELUME_PADDING_NOT_ZERO), "padding not zero") == 0);
}

static void entry_at_two_seconds(void)
{
    begin_full(0);
    CHECK(send_message(SPARE, TWO_SECONDS - 1) == TECELUME_TABLE_FULL);
    CHECK(send_message(SPARE, TWO_SECONDS) == TECELUME_SUCCESS);
}

/* All frames of the longest transfer but the last: 511 bytes, in eight blocks. */
static void begin_long(uint32_t source, uint64_t time)
{
    CHECK(frame(source, START, time) == TECELUME_TAKEN);
    for (unsigned i = 1; i < TECELUME_FRAMES_MAX - 1; i++)
        CHECK(frame(source, i % 2 * TOGGLE, time) == TECELUME_TAKEN);
}

/* 74 frames have 518 bytes, more than payload and checksum may have. */
static void rest_of_a_transfer_too_long(void)
{
    begin();
    begin_long(SOURCE, 0);
    CHECK(frame(SOURCE, TOGGLE, 0) == TECELUME_PAYLOAD_TOO_LONG);
    CHECK(frame(SOURCE, 0, 0) == TECELUME_NO_TRANSFER);
    CHECK(frame(SOURCE, TOGGLE | END, 0) == TECELUME_NO_TRANSFER);
    CHECK(frame(SOURCE, START | 1, 0) == TECELUME_TAKEN);
}

enum { BLOCKS_EACH = 8, FILL = TECELUME_BLOCKS / BLOCKS_EACH };

/* So many sources have all blocks, from 1 on. */
static void begin_without_blocks(uint64_t time)
{
    begin();
    for (uint32_t source = 1; source <= FILL; source++)
        begin_long(source, time);
}

/* At a start, for which there would be a place; single frames need no block. */
static void start_without_a_block(void)
{
    begin_without_blocks(0);
    CHECK(frame(SOURCE, START | 5, 1) == TECELUME_NO_BLOCK);
    CHECK(frame(SOURCE, START | 5, 2) == TECELUME_WRONG_TRANSFER && frame(SOURCE, TOGGLE | 5, 2) == TECELUME_NO_TRANSFER);
    CHECK(frame(SPARE, SINGLE, 2) == TECELUME_HANDED_OUT && frame(SPARE, SINGLE | 1, 2) == TECELUME_HANDED_OUT);
    CHECK(frame(SPARE, START | 2, 2) == TECELUME_NO_BLOCK);
    CHECK(frame(1, START | 9, 2) == TECELUME_TAKEN);
    CHECK(frame(SOURCE, START | 6, 2) == TECELUME_TAKEN && frame(SOURCE, TOGGLE | 6, 2) == TECELUME_TAKEN);
    CHECK(frame(2, TOGGLE, 2) == TECELUME_PAYLOAD_TOO_LONG);
}

/* The longest payload needs a ninth block at its last frame. One gets none, and what it gives back is enough for the others. */
static void end_without_a_block(void)
{
    const uint8_t last[4] = {0, 0, 0, TOGGLE | END};
    begin_without_blocks(0);
    for (uint32_t source = 1; source <= FILL; source++)
        CHECK(tecelume_number(receive_by(only_cable, message_id(TYPE, source), last, sizeof last, 0)) ==
              (source == 1 ? TECELUME_NO_BLOCK : TECELUME_CHECKSUM_DIFFERS));
    CHECK(frame(1, 0, 0) == TECELUME_NO_TRANSFER);
    begin_long(SOURCE, 0);
}

/* The first source began at 0, the others at 1. */
static void begin_one_before_the_others(void)
{
    begin();
    begin_long(1, 0);
    for (uint32_t source = 2; source <= FILL; source++)
        begin_long(source, 1);
}

/* Old sessions drop what they have in hand when a block is needed, and not before; others do not. */
static void blocks_of_old_sessions(void)
{
    begin_one_before_the_others();
    CHECK(frame(SOURCE, START, TWO_SECONDS) == TECELUME_NO_BLOCK);
    CHECK(frame(SPARE, SINGLE, 1 + TWO_SECONDS) == TECELUME_HANDED_OUT);
    CHECK(frame(1, TOGGLE | END, TWO_SECONDS) == TECELUME_PAYLOAD_TOO_LONG);
    begin_one_before_the_others();
    CHECK(frame(SOURCE, START, 1 + TWO_SECONDS) == TECELUME_TAKEN);
    CHECK(frame(1, TOGGLE | END, 0) == TECELUME_NO_TRANSFER);
    CHECK(frame(2, TOGGLE | END, 1 + TWO_SECONDS) == TECELUME_PAYLOAD_TOO_LONG);
}

/* Every number of transfers with its length that always finds blocks, frame by frame in turn. */
static void always_a_block(void)
{
    static const struct {
        uint32_t count;
        size_t length;
    } rows[] = {{7, 512}, {8, 510}, {16, 254}, {32, 126}};
    static uint8_t kept[TECELUME_SESSIONS_MAX + 1][sizeof records];
    for (size_t row = 0; row < sizeof rows / sizeof rows[0]; row++) {
        size_t frames = TECELUME_SEND_SIZE(rows[row].length) / TECELUME_RECORD_SIZE;
        struct topic t = message(TYPE);
        begin();
        for (uint32_t source = 1; source <= rows[row].count; source++) {
            t.own = source;
            CHECK(tecelume_frames(send_signed(&t, rows[row].length, signature, 0, sizeof records)) == frames);
            memcpy(kept[source], records, sizeof records);
        }
        for (size_t i = 0; i < frames; i++)
            for (uint32_t source = 1; source <= rows[row].count; source++) {
                memcpy(records, kept[source], sizeof records);
                CHECK(tecelume_number(carry_record(i, 0)) == (i + 1 < frames ? TECELUME_TAKEN : TECELUME_HANDED_OUT));
            }
    }
}

static void forty_nodes(void)
{
    unsigned heard = 0, unheard = 0;
    begin();
    for (uint32_t source = 1; source <= 40; source++)
        CHECK(frame(source, SINGLE, source) == (source <= 32 ? TECELUME_HANDED_OUT : TECELUME_TABLE_FULL));
    for (unsigned second = 1; second < 100; second++) {
        for (uint32_t source = 1; source <= 40; source++) {
            uint32_t number = frame(source, SINGLE | second % TRANSFER_IDS, second * 1000000u + source);
            heard += number == TECELUME_HANDED_OUT && source <= 32;
            unheard += number == TECELUME_TABLE_FULL && source > 32;
        }
    }
    CHECK(heard == 99 * 32 && unheard == 99 * 8);
}

static void never_set_up(void)
{
    struct topic t = message(TYPE);
    memset(state, 0, sizeof state);
    CHECK(frame(SOURCE, SINGLE, 0) == TECELUME_STATE_FAULT);
    memset(state, 0xFF, sizeof state);
    CHECK(frame(SOURCE, SINGLE, 0) == TECELUME_STATE_FAULT);
    memset(map, 0, sizeof map);
    tecelume_result result = send_topic(&t, 0);
    CHECK(tecelume_number(result) == TECELUME_SUCCESS && tecelume_transfer_id(result) == 0);
    memset(map, 0xFF, sizeof map);
    CHECK(send_message(TYPE, 0) == TECELUME_STATE_FAULT);
}

/* From the second before the wrap to two seconds after it, in 64 bits and cut to 32. */
static void repeat_after_the_wrap(void)
{
    uint64_t before = wrap - 1000000, after = wrap + TWO_SECONDS;
    begin();
    CHECK(frame(SOURCE, SINGLE, before) == TECELUME_HANDED_OUT);
    CHECK(frame(SOURCE, SINGLE, after) == TECELUME_HANDED_OUT);
    begin();
    CHECK(frame(SOURCE, SINGLE, before) == TECELUME_HANDED_OUT);
    CHECK(frame(SOURCE, SINGLE, (uint32_t)after) == TECELUME_WRONG_TRANSFER);
    CHECK(frame(SOURCE, SINGLE, (uint32_t)(wrap - 1)) == TECELUME_WRONG_TRANSFER);
}

/* The followed interface falls silent a second before the wrap. */
static void switch_after_the_wrap(void)
{
    uint64_t before = wrap - ONE_SECOND, after = wrap + ONE_SECOND;
    begin();
    CHECK(frame_by(0, SOURCE, SINGLE, before) == TECELUME_HANDED_OUT);
    CHECK(frame_by(1, SOURCE, SINGLE | 1, after) == TECELUME_HANDED_OUT);
    begin();
    CHECK(frame_by(0, SOURCE, SINGLE, before) == TECELUME_HANDED_OUT);
    CHECK(frame_by(1, SOURCE, SINGLE | 1, (uint32_t)after) == TECELUME_OTHER_INTERFACE);
    CHECK(frame_by(1, SOURCE, SINGLE | 1, before) == TECELUME_OTHER_INTERFACE);
    CHECK(frame_by(0, SOURCE, SINGLE | 1, (uint32_t)after) == TECELUME_HANDED_OUT);
    CHECK(frame_by(1, SOURCE, SINGLE | 2, (uint32_t)after + ONE_SECOND + 1) == TECELUME_HANDED_OUT);
}

/* What was stored just before the wrap, more than two seconds before it, and after it. */
static void places_after_the_wrap(void)
{
    begin_full(wrap - 1);
    CHECK(frame(SPARE, SINGLE, 3 * TWO_SECONDS) == TECELUME_TABLE_FULL && send_message(SPARE, 3 * TWO_SECONDS) == TECELUME_TABLE_FULL);
    CHECK(frame(SPARE, SINGLE, wrap - 1) == TECELUME_TABLE_FULL && send_message(SPARE, wrap - 1) == TECELUME_TABLE_FULL);
    CHECK(frame(1, SINGLE | 1, 10) == TECELUME_HANDED_OUT && send_message(0, 10) == TECELUME_SUCCESS);
    CHECK(frame(SPARE, SINGLE, 11 + TWO_SECONDS) == TECELUME_HANDED_OUT && send_message(SPARE, 10 + TWO_SECONDS) == TECELUME_SUCCESS);
    begin_full(wrap - 2 - TWO_SECONDS);
    CHECK(frame(SPARE, SINGLE, wrap - 2) == TECELUME_TABLE_FULL && frame(SPARE, SINGLE, wrap - 1) == TECELUME_HANDED_OUT);
    CHECK(send_message(SPARE, wrap - 3) == TECELUME_TABLE_FULL && send_message(SPARE, wrap - 2) == TECELUME_SUCCESS);
}

static void signature_zero(void)
{
    struct topic t = message(TYPE);
    CHECK(tecelume_signature(TECELUME_KIND_MESSAGE, TYPE) == 0 && tecelume_signature(TECELUME_KIND_SERVICE, 341) == 0);
    CHECK(tecelume_signature(TECELUME_KIND_SERVICE + 1, 341) == 0);
    CHECK(tecelume_signature(TECELUME_KIND_MESSAGE, 341) != 0 && tecelume_signature(TECELUME_KIND_MESSAGE, 1) != 0);
    CHECK(tecelume_signature(TECELUME_KIND_MESSAGE, 16370) != 0 && tecelume_signature(TECELUME_KIND_MESSAGE, 16383) != 0);
    CHECK(tecelume_signature(TECELUME_KIND_SERVICE, 1) != 0 && tecelume_signature(TECELUME_KIND_MESSAGE, 1092) != 0);
    CHECK(tecelume_signature(TECELUME_KIND_MESSAGE, 1030) != 0 && tecelume_signature(TECELUME_KIND_SERVICE, 11) != 0);
    CHECK(tecelume_signature(TECELUME_KIND_SERVICE, 10) != 0 && tecelume_signature(TECELUME_KIND_MESSAGE, 11) == 0);
    begin();
    CHECK(setup_under(0) == TECELUME_SUCCESS);
    CHECK(frame(SOURCE, SINGLE, 0) == TECELUME_HANDED_OUT);
    CHECK(tecelume_frames(send_signed(&t, 20, signature, 0, sizeof records)) == 4);
    CHECK(tecelume_number(carry(4, TWO_SECONDS + 1)) == TECELUME_CHECKSUM_DIFFERS);
    begin();
    CHECK(tecelume_frames(send_signed(&t, 20, 0, 0, sizeof records)) == 4);
    CHECK(tecelume_number(carry(4, 0)) == TECELUME_CHECKSUM_DIFFERS);
    CHECK(tecelume_frames(send_signed(&t, 20, signature, 0, sizeof records)) == 4);
    CHECK(tecelume_number(carry(4, 0)) == TECELUME_HANDED_OUT);
}

/* The transfer ID that a send gives, which each of its tail bytes has too. */
static uint32_t sent_id(const struct topic *t, size_t length, uint64_t time)
{
    tecelume_result result = send_signed(t, length, signature, time, sizeof records);
    CHECK(tecelume_number(result) == TECELUME_SUCCESS && tecelume_frames(result) > 0);
    for (size_t i = 0; i < tecelume_frames(result); i++) {
        const uint8_t *record = records + i * TECELUME_RECORD_SIZE;
        CHECK((tecelume_record_data(record)[tecelume_record_length(record) - 1] & TRANSFER_ID) == tecelume_transfer_id(result));
    }
    return tecelume_transfer_id(result);
}

static void transfer_id_of_a_send(void)
{
    struct topic response = {OWN, TECELUME_RESPONSE, SERVICE, SOURCE, 0}, anonymous = message(3);
    begin();
    anonymous.own = 0;
    for (uint32_t i = 0; i < 2 * TRANSFER_IDS + 1; i++) {
        struct topic t = message(TYPE);
        CHECK(sent_id(&t, i * 7, 0) == i % TRANSFER_IDS);
        CHECK(sent_id(&anonymous, 7, 0) == i % TRANSFER_IDS);
        response.transfer_id = i % TRANSFER_IDS;
        CHECK(sent_id(&response, 20, 0) == i % TRANSFER_IDS);
    }
    response.transfer_id = TRANSFER_IDS;
    tecelume_result refused = send_topic(&response, 0);
    CHECK(tecelume_number(refused) == TECELUME_NOT_SENDABLE && tecelume_transfer_id(refused) == 0 && tecelume_frames(refused) == 0);
}

/* A node asks and hears its answer under the transfer ID that its send gave. */
static void client_and_server(void)
{
    struct topic request = {OWN, TECELUME_REQUEST, SERVICE, SOURCE, 0}, response = {SOURCE, TECELUME_RESPONSE, SERVICE, OWN, 0};
    begin();
    for (uint32_t i = 0; i < 3; i++) {
        uint32_t asked = sent_id(&request, 20, 0);
        response.transfer_id = asked;
        sent_id(&response, 20, 0);
        tecelume_result answer = carry(4, 0);
        CHECK(tecelume_number(answer) == TECELUME_HANDED_OUT && tecelume_transfer_type(answer) == TECELUME_RESPONSE);
        CHECK(tecelume_transfer_id(answer) == asked && asked == i && tecelume_source(answer) == SOURCE);
    }
}

static void topics_of_the_map(void)
{
    struct topic request = {SOURCE, TECELUME_REQUEST, SERVICE, 5, 0}, elsewhere = request, first = message(1), second = message(2);
    struct topic renamed = first, anonymous = first, as_response = request;
    begin();
    elsewhere.destination = 6;
    renamed.own = SOURCE + 1;
    anonymous.own = 0;
    as_response.transfer_type = TECELUME_RESPONSE;
    CHECK(sent_id(&first, 0, 0) == 0 && sent_id(&renamed, 0, 0) == 1 && sent_id(&anonymous, 0, 0) == 2);
    CHECK(sent_id(&second, 0, 1) == 0 && sent_id(&request, 0, 1) == 0 && sent_id(&elsewhere, 0, 1) == 0 && sent_id(&request, 0, 1) == 1);
    for (uint32_t type_id = 4; type_id < TECELUME_MAP_ENTRIES_MAX; type_id++)
        CHECK(send_message(type_id, 1) == TECELUME_SUCCESS);
    CHECK(send_message(SPARE, 1) == TECELUME_TABLE_FULL);
    CHECK(sent_id(&as_response, 0, 1) == 0);
}

/* The first topic is replaced and comes back; one that kept its entry goes on. */
static void topic_replaced(void)
{
    struct topic first = message(0), second = message(1), last = message(TECELUME_MAP_ENTRIES_MAX - 1), other = message(SPARE);
    begin_full(0);
    CHECK(sent_id(&first, 0, 0) == 1 && sent_id(&second, 0, 0) == 1);
    CHECK(sent_id(&other, 0, TWO_SECONDS) == 0 && sent_id(&other, 0, TWO_SECONDS) == 1);
    CHECK(sent_id(&first, 0, TWO_SECONDS) == 0 && sent_id(&first, 0, TWO_SECONDS) == 1);
    CHECK(sent_id(&second, 0, TWO_SECONDS) == 0);
    CHECK(sent_id(&last, 0, 100 * (uint64_t)TWO_SECONDS) == 1);
}

static void send_size(void)
{
    struct topic t = message(TYPE);
    begin();
    for (size_t n = 0; n <= LONGEST; n++) {
        CHECK(tecelume_number(send_signed(&t, n, signature, 0, TECELUME_SEND_SIZE(n) - 1)) == TECELUME_OUTPUT_TOO_SMALL);
        tecelume_result result = send_signed(&t, n, signature, 0, TECELUME_SEND_SIZE(n));
        CHECK(tecelume_number(result) == TECELUME_SUCCESS && tecelume_frames(result) * TECELUME_RECORD_SIZE == TECELUME_SEND_SIZE(n));
    }
    CHECK(TECELUME_SEND_SIZE(LONGEST) == TECELUME_FRAMES_MAX * TECELUME_RECORD_SIZE);
}

/* Each number of a refused reception, 19 between 3 and 4; receive_by checks what it leaves. */
static void refused_receptions(void)
{
    static const struct {
        uint32_t number, id;
        size_t length;
        struct way by;
        uint8_t tail;
    } rows[] = {
        {2, 0x20000000, 1, {0, sizeof out}, SINGLE},
        {2, 0x20000000, 1, {3, sizeof out}, SINGLE},
        {3, TYPE << 8 | SOURCE, 0, {0, sizeof out}, 0},
        {3, TYPE << 8 | SOURCE, 9, {3, sizeof out}, SINGLE},
        {19, SERVICE << 16 | OWN << 8 | 0x80, 1, {3, sizeof out}, SINGLE},
        {19, TYPE << 8 | 1, 1, {256, sizeof out}, TOGGLE | END | 1},
        {19, TYPE << 8 | 1, 1, {UINT32_MAX, sizeof out}, TOGGLE | END | 1},
        {4, SERVICE << 16 | OWN << 8 | 0x80, 1, {2, sizeof out}, SINGLE},
        {5, TYPE << 8 | SOURCE, 1, {0, sizeof out}, SINGLE | TOGGLE},
        {6, SERVICE << 16 | SPARE << 8 | 0x80 | SOURCE, 1, {0, sizeof out}, SINGLE},
        {7, OTHER_TYPE << 8 | SOURCE, 1, {0, sizeof out}, SINGLE},
        {8, TYPE << 8 | SOURCE, 1, {0, sizeof out - 1}, SINGLE},
        {9, TYPE << 8 | SOURCE, 1, {0, sizeof out}, SINGLE},
    };
    begin_full(0);
    CHECK(frame(1, START | 1, 0) == TECELUME_TAKEN);
    for (size_t i = 0; i < sizeof rows / sizeof rows[0]; i++) {
        uint8_t data[9] = {0};
        if (rows[i].length > 0)
            data[rows[i].length - 1] = rows[i].tail;
        CHECK(tecelume_number(receive_by(rows[i].by, rows[i].id, data, rows[i].length, 0)) == rows[i].number);
    }
    state[0] = 128;
    CHECK(frame(1, TOGGLE | 1, 0) == TECELUME_STATE_FAULT);
}

/* Each number of a refused send; send_signed checks what it leaves. */
static void refused_sends(void)
{
    struct topic known = message(0), other = message(SPARE), wrong = message(0);
    wrong.own = 128;
    begin_full(0);
    CHECK(tecelume_number(send_signed(&known, 20, signature, 0, TECELUME_SEND_SIZE(20) - 1)) == TECELUME_OUTPUT_TOO_SMALL);
    CHECK(tecelume_number(send_topic(&other, 0)) == TECELUME_TABLE_FULL);
    CHECK(tecelume_number(send_signed(&known, LONGEST + 1, signature, 0, sizeof records)) == TECELUME_PAYLOAD_TOO_LONG);
    CHECK(tecelume_number(send_topic(&wrong, 0)) == TECELUME_NOT_SENDABLE);
    CHECK(sent_id(&known, 0, 0) == 1);
    map[0] ^= 2; /* a message's destination */
    CHECK(tecelume_number(send_topic(&known, 0)) == TECELUME_STATE_FAULT);
}

/* The faults that answer 20 (RULES 5.4), at the places of docs/ARCHITECTURE.md; and a value in range, which is not noticed. */
static void faults(void)
{
    enum { FREE = 776, STREAMS = 1040, CONTROLS = 1168, LISTS = 1296, LIST = 9 };
    enum { FIELD = 4, EXPECTED = 2, FLAGS = 3 /* the toggle, and twice the interface */ };
    begin_full(0);
    state[CONTROLS + EXPECTED] = TRANSFER_IDS;
    CHECK(frame(SOURCE, SINGLE, 0) == TECELUME_STATE_FAULT);
    begin_full(0);
    state[CONTROLS + FLAGS] = 1;
    CHECK(frame(SOURCE, SINGLE, 0) == TECELUME_STATE_FAULT);
    begin_full(0);
    state[CONTROLS + FLAGS] = 2 * TECELUME_INTERFACES;
    CHECK(frame(SOURCE, SINGLE, 0) == TECELUME_STATE_FAULT);
    begin_full(0);
    memcpy(state + STREAMS, state + STREAMS + FIELD, FIELD);
    CHECK(frame(SOURCE, SINGLE, 0) == TECELUME_STATE_FAULT);
    begin_full(0);
    state[FREE]--; /* block 0 is neither free nor in a session */
    CHECK(frame(SOURCE, SINGLE, 0) == TECELUME_STATE_FAULT);
    for (unsigned i = 0; i < 3; i++) {
        begin_full(0);
        CHECK(frame(1, START | 1, 0) == TECELUME_TAKEN && frame(2, START | 1, 0) == TECELUME_TAKEN);
        if (i == 0)
            state[FREE]++; /* free and in a session, */
        else
            state[LISTS + LIST] = i == 1 ? 0 : TECELUME_BLOCKS; /* in two, and one too many */
        CHECK(frame(SOURCE, SINGLE, 0) == TECELUME_STATE_FAULT);
    }
    begin_full(0);
    CHECK(frame(1, START | 1, 0) == TECELUME_TAKEN);
    state[CONTROLS] = TECELUME_BLOCK_SIZE + 1; /* bytes for a second block */
    CHECK(frame(SOURCE, SINGLE, 0) == TECELUME_STATE_FAULT);
    begin_full(0);
    memcpy(map, map + FIELD, FIELD);
    CHECK(send_message(0, 0) == TECELUME_STATE_FAULT);
    begin_full(0);
    state[0] = SPARE;
    CHECK(frame(1, SINGLE | 1, 0) == TECELUME_HANDED_OUT);
}

static void new_setup(void)
{
    begin();
    CHECK(frame(SOURCE, SINGLE, 0) == TECELUME_HANDED_OUT);
    CHECK(frame(SOURCE, SINGLE, 0) == TECELUME_WRONG_TRANSFER);
    CHECK(frame(SOURCE, START | 1, 0) == TECELUME_TAKEN);
    CHECK(setup_under(signature) == TECELUME_SUCCESS);
    CHECK(frame(SOURCE, TOGGLE | 1, 0) == TECELUME_NO_TRANSFER);
    CHECK(frame(SOURCE, SINGLE, 0) == TECELUME_HANDED_OUT);
}

/* Message 1000 and service 7, subscribed to in both orders. */
static void order_of_subscriptions(void)
{
    static const uint32_t ids[] = {TYPE << 8 | SOURCE, SERVICE << 16 | OWN << 8 | 0x80 | SOURCE, OTHER_TYPE << 8 | SOURCE};
    enum { IDS = sizeof ids / sizeof ids[0] };
    uint64_t words[2][IDS];
    const uint8_t tail = SINGLE;
    for (unsigned turn = 0; turn < 2; turn++) {
        uint8_t list[2 * TECELUME_SUBSCRIPTION_SIZE];
        uint8_t *other = list + (1 - turn) * TECELUME_SUBSCRIPTION_SIZE;
        tecelume_subscription(list + turn * TECELUME_SUBSCRIPTION_SIZE, TECELUME_KIND_MESSAGE, TYPE, signature);
        tecelume_subscription(other, TECELUME_KIND_SERVICE, SERVICE, signature);
        CHECK(tecelume_setup(state, sizeof state, OWN, list, sizeof list) == TECELUME_SUCCESS);
        for (unsigned i = 0; i < IDS; i++)
            words[turn][i] = receive_by(only_cable, ids[i], &tail, 1, 0).word;
    }
    CHECK(memcmp(words[0], words[1], sizeof words[0]) == 0);
}

static const struct {
    const char *name;
    void (*holds)(void);
} sentences[] = {
    {"header_and_library", header_and_library},
    {"old_from_last_start_taken", old_from_last_start_taken},
    {"session_at_two_seconds", session_at_two_seconds},
    {"handed_out_once", handed_out_once},
    {"switch_after_one_second", switch_after_one_second},
    {"switch_by_transfer_id", switch_by_transfer_id},
    {"anonymous_by_each_interface", anonymous_by_each_interface},
    {"repeat_on_one_cable", repeat_on_one_cable},
    {"repeats", repeats},
    {"losses", losses},
    {"rest_after_a_refused_start", rest_after_a_refused_start},
    {"reasons_in_order", reasons_in_order},
    {"texts", texts},
    {"entry_at_two_seconds", entry_at_two_seconds},
    {"rest_of_a_transfer_too_long", rest_of_a_transfer_too_long},
    {"start_without_a_block", start_without_a_block},
    {"end_without_a_block", end_without_a_block},
    {"blocks_of_old_sessions", blocks_of_old_sessions},
    {"always_a_block", always_a_block},
    {"forty_nodes", forty_nodes},
    {"never_set_up", never_set_up},
    {"repeat_after_the_wrap", repeat_after_the_wrap},
    {"switch_after_the_wrap", switch_after_the_wrap},
    {"places_after_the_wrap", places_after_the_wrap},
    {"signature_zero", signature_zero},
    {"transfer_id_of_a_send", transfer_id_of_a_send},
    {"client_and_server", client_and_server},
    {"topics_of_the_map", topics_of_the_map},
    {"topic_replaced", topic_replaced},
    {"send_size", send_size},
    {"refused_receptions", refused_receptions},
    {"refused_sends", refused_sends},
    {"faults", faults},
    {"new_setup", new_setup},
    {"order_of_subscriptions", order_of_subscriptions},
    {"batch_is_single_calls", batch_is_single_calls},
    {"batch_of_single_frames", batch_of_single_frames},
    {"batch_ends_for_room", batch_ends_for_room},
    {"batch_room_for_results", batch_room_for_results},
    {"batch_of_bad_frames", batch_of_bad_frames},
    {"batch_on_a_fault", batch_on_a_fault},
    {"rewritten_in_passing", rewritten_in_passing},
    {"rewritten_field", rewritten_field},
    {"damage_before_a_correction", damage_before_a_correction},
    {"numbers_of_a_correction", numbers_of_a_correction},
    {"allocator_and_library", allocator_and_library},
    {"dialog_of_an_allocatee", dialog_of_an_allocatee},
    {"same_node_id_again", same_node_id_again},
    {"which_node_id", which_node_id},
    {"marks_are_given_anew", marks_are_given_anew},
    {"only_one_unmarked", only_one_unmarked},
    {"next_message_in_time", next_message_in_time},
    {"one_node_at_a_time", one_node_at_a_time},
    {"copy_of_a_message", copy_of_a_message},
    {"ignored_messages", ignored_messages},
    {"no_node_id_free", no_node_id_free},
    {"refused_allocations", refused_allocations},
    {"allocator_kept", allocator_kept},
    {"table_of_an_allocator", table_of_an_allocator},
    {"allocator_faults", allocator_faults},
    {"forms_and_signatures", forms_and_signatures},
    {"given_and_ignored", given_and_ignored},
    {"definition_and_line", definition_and_line},
    {"refused_definitions", refused_definitions},
    {"room_of_forms", room_of_forms},
    {"limits_of_definitions", limits_of_definitions},
    {"lengths_that_are_too_large", lengths_that_are_too_large},
    {"log_there_and_back", log_there_and_back},
    {"room_for_captures", room_for_captures},
    {"empty_log", empty_log},
    {"preface_ignored", preface_ignored},
    {"refused_logs", refused_logs},
    {"wrong_trailers", wrong_trailers},
    {"records_not_carried", records_not_carried},
    {"count_of_a_capture", count_of_a_capture},
    {"own_sender_passes", own_sender_passes},
    {"frame_of_a_verdict", frame_of_a_verdict},
    {"checks_of_a_capture", checks_of_a_capture},
    {"transfer_ids_judged", transfer_ids_judged},
    {"gap_before_a_start", gap_before_a_start},
    {"responses_judged", responses_judged},
    {"priorities_judged", priorities_judged},
    {"cut_short", cut_short},
    {"checksums_judged", checksums_judged},
    {"longest_judged", longest_judged},
    {"short_payload_judged", short_payload_judged},
    {"streams_judged", streams_judged},
    {"bytes_that_do_not_count", bytes_that_do_not_count},
    {"verdict_without_a_frame", verdict_without_a_frame},
    {"longest_messages", longest_messages},
    {"numbers_clipped", numbers_clipped},
    {"lists_in_the_payload", lists_in_the_payload},
    {"lists_shared", lists_shared},
    {"empty_lists", empty_lists},
    {"floats_of_messages", floats_of_messages},
    {"sub_mode_is_zero", sub_mode_is_zero},
    {"names_of_nodes", names_of_nodes},
    {"cases_of_a_value", cases_of_a_value},
    {"members_never_set", members_never_set},
    {"refused_messages", refused_messages},
    {"rows_of_numbers", rows_of_numbers},
};

int main(int count, char **words)
{
    const char *wanted = count > 1 ? words[1] : NULL;
    bool list = wanted != NULL && strcmp(wanted, "--list") == 0;
    unsigned tried = 0;
    for (size_t i = 0; i < sizeof sentences / sizeof sentences[0]; i++) {
        sentence = sentences[i].name;
        if (list)
            puts(sentence);
        else if (wanted == NULL || strcmp(wanted, sentence) == 0) {
            sentences[i].holds();
            tried++;
        }
    }
    if (list)
        return 0;
    printf("%u sentences of the header hold\n", tried);
    return tried == 0;
}
