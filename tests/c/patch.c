/* Tries what include/tecelume.h says in words of correcting a checksum in passing. */
#include <string.h>

#include "sentence.h"
#include "tecelume.h"

enum { TYPE = 1000, SOURCE = 42, OWN = 1, LENGTH = 30, FRAMES = (LENGTH + 8) / 7, PER_FRAME = 7, CHECKSUM = 2, DATA = 5 };

static const uint64_t signature = 0xFEDCBA9876543210;

static uint8_t state[TECELUME_RECEIVER_SIZE], out[TECELUME_OUTPUT_SIZE], payload[LENGTH], records[TECELUME_SEND_SIZE(LENGTH)];

/* The payload as records, under transfer ID 0. */
static void send_payload(void)
{
    uint8_t map[TECELUME_MAP_SIZE];
    CHECK(tecelume_map_setup(map, sizeof map) == TECELUME_SUCCESS);
    tecelume_result result = tecelume_send(map, sizeof map, SOURCE, TECELUME_MESSAGE, TYPE, 0, 16, payload, LENGTH, signature, 0, 0, 0,
                                           records, sizeof records);
    CHECK(tecelume_number(result) == TECELUME_SUCCESS && tecelume_frames(result) == FRAMES);
}

/* A payload on its way, and a receiver that waits for it. */
static void begin(void)
{
    uint8_t list[TECELUME_SUBSCRIPTION_SIZE];
    tecelume_subscription(list, TECELUME_KIND_MESSAGE, TYPE, signature);
    CHECK(tecelume_setup(state, sizeof state, OWN, list, sizeof list) == TECELUME_SUCCESS);
    for (int i = 0; i < LENGTH; i++)
        payload[i] = (uint8_t)(7 * i + 1);
    send_payload();
}

/* A byte of what the records carry together: the checksum, low byte first, then the payload. */
static uint8_t *carried(size_t index)
{
    return records + index / PER_FRAME * TECELUME_RECORD_SIZE + DATA + index % PER_FRAME;
}

static uint32_t checksum(void)
{
    return (uint32_t)(*carried(0) | *carried(1) << 8);
}

/* Rewrites a byte of the records; the checksum is corrected for what the byte is said to have been. */
static void rewrite_said(size_t at, uint8_t old_byte, uint8_t new_byte)
{
    tecelume_result result = tecelume_patch(checksum(), old_byte, new_byte, LENGTH - 1 - at);
    CHECK(tecelume_number(result) == TECELUME_SUCCESS && result.word >> 24 == 0);
    *carried(0) = (uint8_t)(tecelume_checksum(result) & 255);
    *carried(1) = (uint8_t)(tecelume_checksum(result) >> 8);
    *carried(CHECKSUM + at) = payload[at] = new_byte;
}

static void rewrite(size_t at, uint8_t new_byte)
{
    rewrite_said(at, payload[at], new_byte);
}

/* Gives the records to the receiver; the number of the last one, with the payload in out. */
static uint32_t carry(void)
{
    uint32_t number = TECELUME_TAKEN;
    for (size_t i = 0; i < FRAMES; i++) {
        const uint8_t *record = records + i * TECELUME_RECORD_SIZE;
        CHECK(number == TECELUME_TAKEN);
        tecelume_result result = tecelume_receive(state, sizeof state, tecelume_record_id(record), tecelume_record_data(record),
                                                  tecelume_record_length(record), 0, 0, out, sizeof out);
        number = tecelume_number(result);
        CHECK(number != TECELUME_HANDED_OUT || tecelume_length(result) == LENGTH);
    }
    return number;
}

static bool arrives(void)
{
    return carry() == TECELUME_HANDED_OUT && memcmp(out, payload, LENGTH) == 0;
}

void rewritten_in_passing(void)
{
    static const size_t places[] = {0, 4, 5, 17, LENGTH - 1};
    for (size_t i = 0; i < sizeof places / sizeof places[0]; i++) {
        begin();
        rewrite(places[i], 0xA5);
        CHECK(arrives());
    }
}

/* In any order, as worked out afresh. */
void rewritten_field(void)
{
    uint8_t corrected[sizeof records];
    begin();
    rewrite(12, 0);
    rewrite(10, 0xFF);
    rewrite(11, 0x80);
    memcpy(corrected, records, sizeof records);
    send_payload();
    CHECK(memcmp(corrected, records, sizeof records) == 0 && arrives());
}

void damage_before_a_correction(void)
{
    enum { DAMAGED = CHECKSUM + 20 };
    begin();
    *carried(DAMAGED) ^= 1;
    rewrite(3, 0xA5);
    CHECK(carry() == TECELUME_CHECKSUM_DIFFERS);
    begin();
    *carried(DAMAGED) ^= 1;
    rewrite(3, 0xA5);
    *carried(DAMAGED) ^= 1;
    CHECK(arrives());
    begin();
    rewrite_said(3, payload[3] ^ 1, 0xA5);
    CHECK(carry() == TECELUME_CHECKSUM_DIFFERS);
}

void numbers_of_a_correction(void)
{
    static const uint64_t refused[] = {512, 513, 65536, (uint64_t)1 << 32, UINT64_MAX};
    uint64_t word = tecelume_patch(0x29B1, 0x31, 0x32, 511).word;
    CHECK((word & 255) == TECELUME_SUCCESS && word >> 24 == 0 && word >> 8 != 0x29B1);
    CHECK(tecelume_patch(0x29B1, 0x32, 0x31, 511).word == word);
    CHECK(tecelume_patch(0x29B1 | 0xABCD0000, 0x31 | 0x12345600, 0x32 | 0x100, 511).word == word);
    CHECK(tecelume_checksum(tecelume_patch(0x29B1, 0x31, 0x31, 511)) == 0x29B1);
    for (size_t i = 0; i < sizeof refused / sizeof refused[0]; i++) {
        tecelume_result result = tecelume_patch(0x29B1, 0x31, 0x32, refused[i]);
        CHECK(tecelume_number(result) == TECELUME_PAYLOAD_TOO_LONG && tecelume_checksum(result) == 0 && result.word >> 8 == 0);
    }
}
