/* Tries what include/tecelume.h says in words of judging a capture. */
#include <string.h>

#include "seal.h"
#include "sentence.h"
#include "tecelume.h"

enum { STATUS = 341, INFO = 1, NODE = 42, ASKED = 1, PRIORITY = 16, RULE_BROKEN = 24, SECOND = 1000000 };
enum { FRAMES = 400, PREFACE = 5, LENGTH_AT = 12, DATA_AT = 13, SINGLE = 0xC0, START = 0x80, END = 0x40, TOGGLE = 0x20 };

static const uint64_t status_signature = 0x0F0868D0C1A7C6F1, info_signature = 0xEE468A8121C46A9E;

static uint8_t list[2 * TECELUME_SUBSCRIPTION_SIZE], capture[PREFACE + TECELUME_CAPTURE_SIZE(FRAMES)];
static size_t frames;

/* ---- a capture, frame by frame ---- */

static void begin(void)
{
    uint8_t *next = tecelume_subscription(list, TECELUME_KIND_MESSAGE, STATUS, status_signature);
    tecelume_subscription(next, TECELUME_KIND_SERVICE, INFO, info_signature);
    frames = 0;
}

static uint8_t *record(size_t frame)
{
    return capture + TECELUME_STAMPED_SIZE * frame;
}

static void put(uint8_t *to, uint64_t value, size_t bytes)
{
    for (size_t i = 0; i < bytes; i++)
        to[i] = (uint8_t)(value >> 8 * i);
}

static uint32_t message(uint32_t source)
{
    return (uint32_t)PRIORITY << 24 | (uint32_t)STATUS << 8 | source;
}

static uint32_t service(uint32_t request, uint32_t source, uint32_t destination)
{
    return (uint32_t)PRIORITY << 24 | (uint32_t)INFO << 16 | request << 15 | destination << 8 | 128 | source;
}

static void add(uint64_t time, uint32_t id, const uint8_t *data, size_t length)
{
    uint8_t *to = record(frames++);
    memset(to, 0, TECELUME_STAMPED_SIZE);
    put(to, time, 8);
    put(to + 8, id, 4);
    to[LENGTH_AT] = (uint8_t)length;
    memcpy(to + DATA_AT, data, length);
}

/* A transfer without payload. */
static void add_single(uint64_t time, uint32_t id, uint32_t transfer_id)
{
    uint8_t tail = (uint8_t)(SINGLE | transfer_id);
    add(time, id, &tail, 1);
}

/* A payload of NodeStatus's type from node 42, under the transfer ID 0; how many frames it takes. */
static size_t add_payload(uint64_t time, size_t length)
{
    static uint8_t records[TECELUME_SEND_SIZE(TECELUME_PAYLOAD_MAX)], payload[TECELUME_PAYLOAD_MAX];
    uint8_t map[TECELUME_MAP_SIZE];
    CHECK(tecelume_map_setup(map, sizeof map) == TECELUME_SUCCESS);
    for (size_t i = 0; i < length; i++)
        payload[i] = (uint8_t)(3 * i + 1);
    tecelume_result sent = tecelume_send(map, sizeof map, NODE, TECELUME_MESSAGE, STATUS, 0, PRIORITY, payload, length, status_signature, time, 0,
                                         0, records, sizeof records);
    CHECK(tecelume_number(sent) == TECELUME_SUCCESS);
    for (size_t i = 0; i < tecelume_frames(sent); i++) {
        uint8_t *to = record(frames++);
        put(to, time, 8);
        memcpy(to + 8, records + i * TECELUME_RECORD_SIZE, TECELUME_RECORD_SIZE);
    }
    return tecelume_frames(sent);
}

/* The verdict, by both calls, and that they write nothing. */
static tecelume_result judge_bytes(size_t list_length, size_t capture_length)
{
    static uint8_t before[sizeof capture];
    uint8_t list_before[sizeof list];
    memcpy(before, capture, sizeof capture);
    memcpy(list_before, list, sizeof list);
    tecelume_result verdict = tecelume_judge(list, list_length, capture, capture_length);
    uint64_t word = tecelume_judge_word(list, list_length, capture, capture_length);
    CHECK(word == (tecelume_number(verdict) | (uint64_t)tecelume_frame_at_fault(verdict) << 8));
    CHECK(memcmp(before, capture, sizeof capture) == 0 && memcmp(list_before, list, sizeof list) == 0);
    return verdict;
}

/* Whether the capture gets this verdict; the records after it are not overwritten. */
static bool gets(uint32_t number, size_t frame)
{
    uint8_t after[TECELUME_TRAILER_SIZE];
    memcpy(after, record(frames), sizeof after);
    tecelume_result verdict = judge_bytes(sizeof list, trail(capture, frames));
    memcpy(record(frames), after, sizeof after);
    return tecelume_number(verdict) == number && tecelume_frame_at_fault(verdict) == frame;
}

static bool passes(void)
{
    return gets(TECELUME_SUCCESS, 0);
}

/* ---- sentences ---- */

/* Sends of several sorts on one map, at rising times: every beginning passes. */
void own_sender_passes(void)
{
    static uint8_t records[TECELUME_SEND_SIZE(30)], payload[30];
    uint8_t map[TECELUME_MAP_SIZE];
    begin();
    CHECK(tecelume_map_setup(map, sizeof map) == TECELUME_SUCCESS);
    for (uint32_t i = 0; i < 9; i++) {
        uint32_t type = i % 3;
        tecelume_result sent = tecelume_send(map, sizeof map, NODE, type, type == TECELUME_MESSAGE ? STATUS : INFO, type == TECELUME_MESSAGE ? 0 : 7,
                                             i, payload, 3 * i, type == TECELUME_MESSAGE ? status_signature : info_signature,
                                             (uint64_t)i * SECOND, 30 - i, 0, records, sizeof records);
        CHECK(tecelume_number(sent) == TECELUME_SUCCESS);
        for (size_t k = 0; k < tecelume_frames(sent); k++)
            add((uint64_t)i * SECOND, tecelume_record_id(records + k * TECELUME_RECORD_SIZE),
                tecelume_record_data(records + k * TECELUME_RECORD_SIZE), tecelume_record_length(records + k * TECELUME_RECORD_SIZE));
    }
    size_t all = frames;
    for (frames = 0; frames <= all; frames++)
        CHECK(passes());
}

/* The frame is counted from 0 and has as many bits as it takes; what comes after it does not matter. */
void frame_of_a_verdict(void)
{
    static const size_t places[] = {0, 1, 255, 256, 299};
    for (size_t i = 0; i < sizeof places / sizeof places[0]; i++) {
        begin();
        for (uint32_t k = 0; k < 300; k++)
            add_single(0, message(NODE), k % 32);
        record(places[i])[11] |= 0x20;
        CHECK(gets(TECELUME_ID_TOO_LARGE, places[i]));
        frames = places[i] + 1;
        CHECK(gets(TECELUME_ID_TOO_LARGE, places[i]));
        frames = places[i];
        CHECK(passes());
    }
}

/* The checks of a reception but 6, the first that refuses a frame. */
void checks_of_a_capture(void)
{
    begin();
    add_single(0, message(NODE), 0);
    add_single(0, message(NODE), 1);
    record(1)[LENGTH_AT] = 9;
    record(1)[11] |= 0x20;
    CHECK(gets(TECELUME_ID_TOO_LARGE, 1));
    record(1)[11] &= 0x1F;
    CHECK(gets(TECELUME_DATA_LENGTH, 1));
    record(1)[LENGTH_AT] = 0;
    CHECK(gets(TECELUME_DATA_LENGTH, 1));
    frames = 1;
    add_single(0, service(1, 0, NODE), TOGGLE);
    CHECK(gets(TECELUME_SERVICE_UNNAMED, 1));
    put(record(1) + 8, service(1, NODE, 0), 4);
    CHECK(gets(TECELUME_SERVICE_UNNAMED, 1));
    put(record(1) + 8, service(1, NODE, ASKED) ^ 1 << 16, 4);
    CHECK(gets(TECELUME_TAIL, 1));
    record(1)[DATA_AT] = SINGLE;
    CHECK(gets(TECELUME_NO_SUBSCRIPTION, 1));
    put(record(1) + 8, service(1, NODE, ASKED), 4);
    CHECK(passes());
}

/* One by one, from any first; 31 is followed by 0. */
void transfer_ids_judged(void)
{
    begin();
    for (uint32_t i = 0; i < 40; i++)
        add_single(0, message(NODE), (27 + i) % 32);
    CHECK(passes());
    frames = 20;
    add_single(0, message(NODE), (27 + 20 + 1) % 32);
    CHECK(gets(RULE_BROKEN, 20));
    frames = 20;
    add_single(0, message(NODE), (27 + 20 - 1) % 32);
    CHECK(gets(RULE_BROKEN, 20));
    frames = 20;
    add_single(0, message(NODE + 1), 3);
    CHECK(passes());
    begin();
    add_single(0, service(1, NODE, ASKED), 5);
    add_single(0, service(1, NODE, ASKED), 5);
    CHECK(gets(RULE_BROKEN, 1));
}

/* From start to start, at exactly 2,000,000; the next ID stays allowed; an earlier time is not after. */
void gap_before_a_start(void)
{
    static const struct {
        uint64_t before, after;
        bool is_gap;
    } gaps[] = {{1, 2 * SECOND, false},
                {1, 2 * SECOND + 1, true},
                {0, UINT64_MAX, true},
                {5, 0x100000006, true},
                {3 * SECOND, 0, false},
                {UINT64_MAX, 1999998, false},
                {UINT64_MAX - 2 * SECOND, UINT64_MAX, true}};
    for (size_t i = 0; i < sizeof gaps / sizeof gaps[0]; i++) {
        begin();
        add_single(gaps[i].before, message(NODE), 5);
        add_single(gaps[i].after, message(NODE), 0);
        CHECK(gaps[i].is_gap ? passes() : gets(RULE_BROKEN, 1));
        frames = 1;
        add_single(gaps[i].after, message(NODE), 6);
        CHECK(passes());
        frames = 1;
        add_single(gaps[i].after, message(NODE), 7);
        CHECK(gets(RULE_BROKEN, 1));
    }
    begin();
    size_t sent = add_payload(SECOND, 20);
    put(record(sent - 1), (uint64_t)9 * SECOND, 8);
    add_single(3 * SECOND, message(NODE), 0);
    CHECK(passes());
    put(record(sent), (uint64_t)3 * SECOND - 1, 8);
    CHECK(gets(RULE_BROKEN, sent));
}

void responses_judged(void)
{
    static const uint32_t ids[] = {5, 5, 0, 31, 5, 4};
    begin();
    for (size_t i = 0; i < sizeof ids / sizeof ids[0]; i++)
        add_single(0, service(0, NODE, ASKED), ids[i]);
    CHECK(passes());
}

/* One for the frames of a transfer, another for the next. */
void priorities_judged(void)
{
    begin();
    size_t sent = add_payload(0, 20);
    add_single(0, message(NODE) ^ 3 << 24, 1);
    CHECK(passes());
    record(1)[11] ^= 3;
    CHECK(gets(RULE_BROKEN, 1));
    record(1)[11] ^= 3;
    record(sent - 1)[11] ^= 3;
    CHECK(gets(RULE_BROKEN, sent - 1));
    for (size_t i = 0; i < sent - 1; i++)
        record(i)[11] ^= 3;
    CHECK(passes());
}

/* The last transfer of a stream, and no other; a capture does not begin inside one, and has no frame twice. */
void cut_short(void)
{
    begin();
    size_t sent = add_payload(0, 30);
    for (frames = 1; frames < sent; frames++)
        CHECK(passes());
    frames = 2;
    add_single(0, message(NODE + 1), 0);
    CHECK(passes());
    add_single(0, message(NODE), 1);
    CHECK(gets(RULE_BROKEN, 3));
    begin();
    add_payload(0, 30);
    memmove(record(0), record(1), TECELUME_STAMPED_SIZE * --frames);
    CHECK(gets(RULE_BROKEN, 0));
    for (size_t at = 0; at < sent; at++) {
        begin();
        add_payload(0, 30);
        memmove(record(at + 1), record(at), TECELUME_STAMPED_SIZE * (frames - at));
        frames++;
        CHECK(gets(RULE_BROKEN, at + 1));
    }
}

/* Any byte of a payload or of its checksum: 12, at the end, unless that frame does not continue the transfer. */
void checksums_judged(void)
{
    begin();
    size_t sent = add_payload(0, 20);
    for (size_t at = 0; at < sent; at++) {
        record(at)[DATA_AT] ^= 1;
        CHECK(gets(TECELUME_CHECKSUM_DIFFERS, sent - 1));
        record(sent - 1)[11] ^= 1;
        CHECK(gets(RULE_BROKEN, sent - 1));
        record(sent - 1)[11] ^= 1;
        record(at)[DATA_AT] ^= 1;
    }
    put(list + 5, status_signature + 1, 8);
    CHECK(gets(TECELUME_CHECKSUM_DIFFERS, sent - 1));
}

/* 512 bytes pass; of more the 74th frame gets 11, whatever its checksum, and without an end too. */
void longest_judged(void)
{
    begin();
    size_t sent = add_payload(0, TECELUME_PAYLOAD_MAX);
    CHECK(sent == TECELUME_FRAMES_MAX && passes());
    uint8_t *last = record(sent - 1);
    memset(last + DATA_AT, 0, 8);
    last[LENGTH_AT] = 5;
    last[DATA_AT + 4] = END | TOGGLE;
    CHECK(gets(TECELUME_PAYLOAD_TOO_LONG, sent - 1));
    last[LENGTH_AT] = 8;
    last[DATA_AT + 4] = 0;
    last[DATA_AT + 7] = TOGGLE;
    CHECK(gets(TECELUME_PAYLOAD_TOO_LONG, sent - 1));
    last[DATA_AT + 7] = TOGGLE | 1;
    CHECK(gets(RULE_BROKEN, sent - 1));
    frames--;
    CHECK(passes());
}

/* Seven bytes with their checksum, which go in one frame. */
void short_payload_judged(void)
{
    static const uint8_t first[] = {0x67, 0xAC, 0, 1, 2, 3, 4, START}, second[] = {5, 6, END | TOGGLE};
    begin();
    add(0, message(NODE), first, sizeof first);
    add(0, message(NODE), second, sizeof second);
    CHECK(gets(RULE_BROKEN, 1));
    record(1)[DATA_AT] ^= 1;
    CHECK(gets(TECELUME_CHECKSUM_DIFFERS, 1));
}

/* 64 pass, and the 65th gets 9, but for the checks before anything else. Streams are type and nodes; anonymous frames are none. */
void streams_judged(void)
{
    begin();
    put(list + 1, 1, 4);
    uint32_t id = (uint32_t)PRIORITY << 24 | 1 << 8;
    for (uint32_t node = 1; node <= 62; node++)
        add_single(0, id | node, 0);
    add_single(0, service(1, NODE, ASKED), 0);
    add_single(0, service(0, NODE, ASKED), 0);
    add_single(0, id | 0x5400, 9);
    add_single(0, id | 0x5400, 9);
    add_single(0, id | 1, 1);
    CHECK(passes());
    size_t all = frames;
    add_single(0, id | 63, 0);
    CHECK(gets(TECELUME_TABLE_FULL, all));
    record(all)[DATA_AT] = record(all)[DATA_AT + 1] = END;
    record(all)[LENGTH_AT] = 2;
    CHECK(gets(TECELUME_TABLE_FULL, all));
    record(all)[LENGTH_AT] = 1;
    CHECK(gets(TECELUME_TAIL, all));
    frames = all;
    add_single(0, message(63), 0);
    CHECK(gets(TECELUME_NO_SUBSCRIPTION, all));
}

/* A preface and bytes past the data do not count. */
void bytes_that_do_not_count(void)
{
    begin();
    size_t sent = add_payload(0, 8);
    add_single(0, message(NODE), 1);
    memset(record(sent) + DATA_AT + 1, 0xA5, 7);
    memset(record(sent - 1) + DATA_AT + 4, 0xFF, 4);
    CHECK(passes());
    memmove(capture + PREFACE, capture, TECELUME_STAMPED_SIZE * frames);
    memcpy(capture, "maker", PREFACE);
    tecelume_result verdict = judge_bytes(sizeof list, PREFACE + trail(capture + PREFACE, frames));
    CHECK(tecelume_number(verdict) == TECELUME_SUCCESS && tecelume_frame_at_fault(verdict) == 0);
}

/* 13 before 22, 22 before any frame; none of them names one. */
void verdict_without_a_frame(void)
{
    begin();
    CHECK(passes());
    add_single(0, message(NODE), 0);
    size_t size = trail(capture, frames);
    tecelume_result verdict = judge_bytes(0, size);
    CHECK(tecelume_number(verdict) == TECELUME_NO_SUBSCRIPTION && tecelume_frame_at_fault(verdict) == 0);
    verdict = judge_bytes(sizeof list - 1, size);
    CHECK(tecelume_number(verdict) == TECELUME_SETUP_REFUSED && tecelume_frame_at_fault(verdict) == 0);
    verdict = judge_bytes(sizeof list - 1, size - 1);
    CHECK(tecelume_number(verdict) == TECELUME_SETUP_REFUSED && tecelume_frame_at_fault(verdict) == 0);
    add_single(0, message(NODE), 5);
    CHECK(gets(RULE_BROKEN, 1));
    size = trail(capture, frames);
    for (size_t length = 0; length < TECELUME_TRAILER_SIZE; length++) {
        verdict = judge_bytes(sizeof list, length);
        CHECK(tecelume_number(verdict) == TECELUME_NO_CAPTURE && tecelume_frame_at_fault(verdict) == 0);
    }
    for (size_t at = 0; at < size; at++) {
        capture[at] ^= 1;
        verdict = judge_bytes(sizeof list, size);
        CHECK(tecelume_number(verdict) == TECELUME_NO_CAPTURE && tecelume_frame_at_fault(verdict) == 0);
        capture[at] ^= 1;
    }
    verdict = judge_bytes(sizeof list, size - 1);
    CHECK(tecelume_number(verdict) == TECELUME_NO_CAPTURE && tecelume_frame_at_fault(verdict) == 0);
    tecelume_subscription(list + TECELUME_SUBSCRIPTION_SIZE, TECELUME_KIND_MESSAGE, STATUS, 0);
    CHECK(gets(TECELUME_SETUP_REFUSED, 0));
}
