/* Tries what include/tecelume.h says in words of receiving several frames in one call. */
#include <string.h>

#include "sentence.h"
#include "tecelume.h"

enum { TYPE = 1000, OWN = 1, NODES = 32, PER_FRAME = 7, LONG = 30, LONG_FRAMES = (LONG + 8) / 7, MOST = 40, EXTRA = 9, GUARD = 0x5A };
enum { WIDE = TECELUME_OUTPUT_SIZE + NODES * PER_FRAME };

static const uint64_t signature = 0xFEDCBA9876543210;

static uint8_t state[TECELUME_RECEIVER_SIZE], records[MOST * TECELUME_ARRIVAL_SIZE + EXTRA], results[MOST * TECELUME_RESULT_SIZE + EXTRA], out[WIDE];
static size_t count; /* of the records */

static void begin(void)
{
    uint8_t list[TECELUME_SUBSCRIPTION_SIZE];
    tecelume_subscription(list, TECELUME_KIND_MESSAGE, TYPE, signature);
    CHECK(tecelume_setup(state, sizeof state, OWN, list, sizeof list) == TECELUME_SUCCESS);
    count = 0;
}

static uint32_t id_of(uint32_t source)
{
    return (uint32_t)16 << 24 | (uint32_t)TYPE << 8 | source;
}

static void add(uint32_t id, const uint8_t *frame, size_t frame_len, uint32_t interface_number)
{
    uint8_t *record = records + count * TECELUME_ARRIVAL_SIZE;
    CHECK(tecelume_arrival(record, id, frame, frame_len, interface_number, count++) == record + TECELUME_ARRIVAL_SIZE);
}

/* A transfer of one frame, whose payload is its source so many times. */
static void add_single(uint32_t source, size_t length)
{
    uint8_t frame[8];
    memset(frame, (int)source, length);
    frame[length] = 0xC0;
    add(id_of(source), frame, length + 1, 0);
}

/* A transfer of several frames. */
static void add_long(uint32_t source)
{
    uint8_t map[TECELUME_MAP_SIZE], payload[LONG], frames[TECELUME_SEND_SIZE(LONG)];
    memset(payload, (int)source, sizeof payload);
    CHECK(tecelume_map_setup(map, sizeof map) == TECELUME_SUCCESS);
    tecelume_result sent = tecelume_send(map, sizeof map, source, TECELUME_MESSAGE, TYPE, 0, 16, payload, sizeof payload, signature, 0, 0, 0,
                                         frames, sizeof frames);
    CHECK(tecelume_number(sent) == TECELUME_SUCCESS && tecelume_frames(sent) == LONG_FRAMES);
    for (size_t i = 0; i < LONG_FRAMES; i++) {
        const uint8_t *frame = frames + i * TECELUME_RECORD_SIZE;
        add(tecelume_record_id(frame), tecelume_record_data(frame), tecelume_record_length(frame), 0);
    }
}

/* The call on the records from `from` on. What it may not write is filled before. */
static tecelume_result receive_from(size_t from, size_t results_len, size_t out_len)
{
    memset(results, GUARD, sizeof results);
    memset(out, GUARD, sizeof out);
    return tecelume_receive_many(state, sizeof state, records + from * TECELUME_ARRIVAL_SIZE, (count - from) * TECELUME_ARRIVAL_SIZE, results,
                                 results_len, out, out_len);
}

static bool stays(const uint8_t *bytes, size_t from, size_t to)
{
    for (size_t i = from; i < to; i++)
        if (bytes[i] != GUARD)
            return false;
    return true;
}

/* So many were used up, and no result is written after theirs. */
static bool uses_up(tecelume_result result, size_t used)
{
    return tecelume_number(result) == TECELUME_SUCCESS && tecelume_used(result) == used &&
           stays(results, used * TECELUME_RESULT_SIZE, sizeof results);
}

/* The frames of a long transfer, a repeat of each and a frame of another type, all in one call and singly. */
void batch_is_single_calls(void)
{
    static const uint8_t other[] = {1, 0xC0};
    uint8_t after[sizeof state], single[TECELUME_OUTPUT_SIZE];
    size_t past = 0;
    begin();
    add_long(5);
    add(0x10000105, other, sizeof other, 0);
    add(id_of(7), other, sizeof other, 3);
    add_single(6, 3);
    add_single(6, 3);
    CHECK(uses_up(receive_from(0, sizeof results, sizeof out), count));
    memcpy(after, state, sizeof state);
    size_t made = count;
    begin();
    for (size_t i = 0; i < made; i++) {
        const uint8_t *r = records + i * TECELUME_ARRIVAL_SIZE;
        uint32_t id = (uint32_t)r[8] | (uint32_t)r[9] << 8 | (uint32_t)r[10] << 16 | (uint32_t)r[11] << 24;
        tecelume_result result = tecelume_receive(state, sizeof state, id, r + 14, r[13], r[12], i, single, sizeof single);
        CHECK(result.word == tecelume_result_at(results, i).word);
        CHECK(memcmp(single, out + past, tecelume_length(result)) == 0);
        past += tecelume_length(result);
    }
    CHECK(past == LONG + 3 && memcmp(after, state, sizeof state) == 0);
}

/* 32 single frames in one call: their payloads one after the other, the rest of the buffer as it was. */
void batch_of_single_frames(void)
{
    begin();
    for (uint32_t node = 1; node <= NODES; node++)
        add_single(node, PER_FRAME);
    CHECK(uses_up(receive_from(0, sizeof results, WIDE), NODES));
    for (size_t i = 0; i < NODES; i++) {
        tecelume_result result = tecelume_result_at(results, i);
        CHECK(tecelume_number(result) == TECELUME_HANDED_OUT && tecelume_length(result) == PER_FRAME && tecelume_source(result) == i + 1);
        for (size_t k = 0; k < PER_FRAME; k++)
            CHECK(out[i * PER_FRAME + k] == i + 1);
    }
    CHECK(stays(out, NODES * PER_FRAME, sizeof out));
}

/* It ends when a payload leaves fewer than 512 bytes, and not at an empty one. */
void batch_ends_for_room(void)
{
    begin();
    add_single(1, 0);
    add_single(2, PER_FRAME);
    add_single(3, PER_FRAME);
    add_single(4, PER_FRAME);
    CHECK(uses_up(receive_from(0, sizeof results, TECELUME_OUTPUT_SIZE), 2));
    CHECK(tecelume_number(tecelume_result_at(results, 0)) == TECELUME_HANDED_OUT && tecelume_length(tecelume_result_at(results, 0)) == 0);
    CHECK(out[0] == 2 && stays(out, PER_FRAME, sizeof out));
    CHECK(uses_up(receive_from(2, sizeof results, TECELUME_OUTPUT_SIZE + PER_FRAME - 1), 1));
    CHECK(uses_up(receive_from(3, sizeof results, TECELUME_OUTPUT_SIZE), 1));
    begin();
    add_single(2, PER_FRAME);
    add_single(3, PER_FRAME);
    CHECK(uses_up(receive_from(0, sizeof results, TECELUME_OUTPUT_SIZE + PER_FRAME), 2));
    CHECK(out[0] == 2 && out[PER_FRAME] == 3);
    begin();
    add_single(2, PER_FRAME);
    add_single(3, PER_FRAME);
    CHECK(uses_up(receive_from(0, sizeof results, TECELUME_OUTPUT_SIZE - 1), 2));
    CHECK(tecelume_number(tecelume_result_at(results, 0)) == TECELUME_OUTPUT_TOO_SMALL && stays(out, 0, sizeof out));
}

/* As many records as there is room for results; a part of a record is not read. */
void batch_room_for_results(void)
{
    begin();
    for (uint32_t node = 1; node <= 4; node++)
        add_single(node, PER_FRAME);
    CHECK(uses_up(receive_from(0, 2 * TECELUME_RESULT_SIZE, WIDE), 2));
    CHECK(uses_up(receive_from(2, TECELUME_RESULT_SIZE - 1, WIDE), 0));
    CHECK(uses_up(tecelume_receive_many(state, sizeof state, records + 2 * TECELUME_ARRIVAL_SIZE, 2 * TECELUME_ARRIVAL_SIZE - 1, results,
                                        sizeof results, out, sizeof out),
                  1));
    CHECK(tecelume_source(tecelume_result_at(results, 0)) == 3);
    CHECK(tecelume_receive_many(state, sizeof state, NULL, 0, NULL, 0, NULL, 0).word == TECELUME_SUCCESS);
}

/* What is wrong with a frame is in its own result, and the ones after it are received. */
void batch_of_bad_frames(void)
{
    static const uint8_t frame[300] = {1, 2, 3, 4, 5, 6, 7, 0xC0, 0xC0};
    static const size_t lengths[] = {0, 9, 255, 256, 300};
    begin();
    for (size_t i = 0; i < sizeof lengths / sizeof lengths[0]; i++)
        add(id_of(1), frame, lengths[i], 0);
    add((uint32_t)1 << 29, frame, 9, 3);
    add(id_of(1), frame, 8, 3);
    add(id_of(1), frame, 8, 256);
    add(id_of(1), frame, 8, 0);
    CHECK(uses_up(receive_from(0, sizeof results, sizeof out), count));
    for (size_t i = 0; i < 5; i++)
        CHECK(tecelume_result_at(results, i).word == TECELUME_DATA_LENGTH);
    CHECK(tecelume_result_at(results, 5).word == TECELUME_ID_TOO_LARGE);
    CHECK(tecelume_result_at(results, 6).word == TECELUME_NO_INTERFACE && tecelume_result_at(results, 7).word == TECELUME_NO_INTERFACE);
    CHECK(tecelume_number(tecelume_result_at(results, 8)) == TECELUME_HANDED_OUT && memcmp(out, frame, PER_FRAME) == 0);
}

/* 20 comes with no record used up and nothing written, without records too. */
void batch_on_a_fault(void)
{
    uint8_t before[sizeof state];
    begin();
    add_single(1, PER_FRAME);
    state[0] = 128;
    memcpy(before, state, sizeof state);
    tecelume_result result = receive_from(0, sizeof results, sizeof out);
    CHECK(result.word == TECELUME_STATE_FAULT && tecelume_used(result) == 0);
    CHECK(stays(results, 0, sizeof results) && stays(out, 0, sizeof out) && memcmp(before, state, sizeof state) == 0);
    CHECK(tecelume_receive_many(state, sizeof state, NULL, 0, NULL, 0, NULL, 0).word == TECELUME_STATE_FAULT);
    begin();
    CHECK(tecelume_receive_many(state, sizeof state - 1, NULL, 0, NULL, 0, NULL, 0).word == TECELUME_STATE_FAULT);
}
