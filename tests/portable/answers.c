/* Random calls of every C entry, always the same ones, as a transcript of their answers: what the archive answers on a PC, the C file must
 * answer on every machine. It uses nothing of a system but printf.
 *
 * Every FOLD calls a line has a digest of all answers so far, of the bytes that they left in the output buffer, and of all bytes of the
 * states. At the end each entry's answers are counted, and each answer that can be given must have been. No two random numbers are drawn
 * in one expression: C leaves the order of its operands to the compiler. */
#include <stdbool.h>
#include <stdio.h>
#include <string.h>

#include "../c/seal.h"
#include "tecelume.h"

enum { CALLS = 100000, FOLD = 1000, LANES = 6, NODES = 2, TYPES = 6, NUMBERS = TECELUME_DEFINITIONS_TOO_LARGE + 1, ALLOCATEES = 140 };
enum { BLOCKS_AT = 1584, FIRST_ENTRIES = 60 }; /* where the blocks of a receiver start; of an allocator, counts and two entries */
enum entry { SETUP, RECEIVE, MAP_SETUP, SEND, PATCH, ALLOCATOR_SETUP, ALLOCATE, SIGNATURES, CAPTURE, UNCAPTURE, JUDGE, OTHERS, ENTRIES };

static const char *const names[ENTRIES] = {"setup",    "receive",    "map_setup", "send",      "patch", "allocator_setup",
                                           "allocate", "signatures", "capture",   "uncapture", "judge", "others"};
#define BIT(number) ((uint64_t)1 << (number))
static const uint64_t must[ENTRIES] = {
    BIT(0) | BIT(13) | BIT(20),
    (BIT(10) - 1) | BIT(11) | BIT(12) | BIT(19) | BIT(20) | BIT(26) | (BIT(35) - BIT(30)),
    BIT(0) | BIT(20),
    BIT(0) | BIT(8) | BIT(9) | BIT(11) | BIT(14) | BIT(20),
    BIT(0) | BIT(11),
    BIT(0) | BIT(20),
    BIT(0) | BIT(8) | BIT(13) | BIT(15) | BIT(16) | BIT(20) | BIT(21),
    BIT(0) | BIT(8) | (BIT(44) - BIT(40)),
    BIT(0) | BIT(8) | BIT(18),
    BIT(0) | BIT(8) | BIT(22) | BIT(23),
    BIT(0) | (BIT(6) - BIT(2)) | BIT(7) | BIT(9) | BIT(11) | BIT(12) | BIT(13) | BIT(22) | BIT(24),
    BIT(0),
};

static uint8_t state[TECELUME_RECEIVER_SIZE];
static uint8_t maps[NODES][TECELUME_MAP_SIZE];
static uint8_t allocator[TECELUME_ALLOCATOR_SIZE];
static uint8_t out[TECELUME_FRAMES_MAX * TECELUME_RECORD_SIZE];
static uint8_t payload[600];
static uint64_t now;
static uint32_t own_id; /* of the receiver */

/* The frames of a transfer on their way. */
static struct lane {
    uint8_t records[TECELUME_FRAMES_MAX * TECELUME_RECORD_SIZE];
    size_t count, next;
} lanes[LANES];

/* ---- randomness, digest, counts ---- */

static uint64_t seed = 1;

static uint32_t below(uint32_t n)
{
    seed ^= seed << 13;
    seed ^= seed >> 7;
    seed ^= seed << 17;
    return (uint32_t)((seed >> 16) % n);
}

static bool once_in(uint32_t n)
{
    return below(n) == 0;
}

static uint64_t digest = 14695981039346656037u;
static uint32_t calls, counts[ENTRIES][NUMBERS];

static void add(const uint8_t *bytes, size_t n)
{
    for (size_t i = 0; i < n; i++)
        digest = (digest ^ bytes[i]) * 1099511628211u;
}

static void answered(enum entry entry, uint64_t word, size_t left)
{
    tecelume_result result = {word};
    for (int i = 0; i < 64; i += 8)
        digest = (digest ^ (word >> i & 255)) * 1099511628211u;
    add(out, left);
    counts[entry][entry == OTHERS ? 0 : tecelume_number(result) % NUMBERS]++;
    if (++calls % FOLD == 0) {
        add(state, sizeof state);
        add(maps[0], sizeof maps);
        add(allocator, sizeof allocator);
        printf("%6lu %08lx%08lx\n", (unsigned long)calls, (unsigned long)(digest >> 32), (unsigned long)(digest & 0xFFFFFFFFu));
    }
}

/* ---- calls ---- */

static uint64_t signature_of(uint32_t type_id)
{
    return (type_id + 1) * UINT64_C(0x9E3779B97F4A7C15);
}

/* Mostly within the limit. */
static uint32_t number_to(uint32_t limit)
{
    return once_in(60) ? limit + 1 + below(3) : below(limit + 1);
}

static void set_up(void)
{
    uint8_t list[2 * TYPES * TECELUME_SUBSCRIPTION_SIZE], *next = list;
    for (uint32_t i = 0; i < 2 * TYPES; i++)
        next = tecelume_subscription(next, once_in(300) ? 2 : i % 2, i / 2, signature_of(i / 2));
    if (once_in(10))
        memcpy(list, list + sizeof list - TECELUME_SUBSCRIPTION_SIZE, TECELUME_SUBSCRIPTION_SIZE);
    own_id = number_to(127);
    size_t state_len = sizeof state - once_in(10);
    size_t list_len = sizeof list - once_in(10);
    answered(SETUP, tecelume_setup(state, state_len, own_id, list, list_len), 0);
}

static void set_up_map(void)
{
    uint8_t *map = maps[below(NODES)];
    answered(MAP_SETUP, tecelume_map_setup(map, TECELUME_MAP_SIZE - once_in(5)), 0);
}

/* A payload of a random length, the short ones and the edges more often. */
static size_t any_payload(void)
{
    static const size_t edges[] = {0, 1, 7, 8, 12, 13, 512, 513};
    size_t length = once_in(8) ? edges[below(8)] : once_in(8) ? below(600) : below(30);
    for (size_t i = 0; i < length; i++)
        payload[i] = (uint8_t)below(256);
    return length;
}

static void send_on(struct lane *lane)
{
    uint8_t *map = maps[below(NODES)];
    uint32_t kind = number_to(2);
    uint32_t own = number_to(127);
    uint32_t type_id = once_in(20) ? number_to(65535) : below(own == 0 ? 4 : TYPES);
    uint32_t destination = kind == 0 ? 0 : once_in(3) ? number_to(127) : own_id;
    uint32_t priority = number_to(31);
    uint32_t transfer_id = number_to(31);
    uint32_t discriminator = below(16384);
    size_t length = any_payload();
    size_t out_len = once_in(10) ? below(200) : sizeof out;
    tecelume_result sent = tecelume_send(map, TECELUME_MAP_SIZE, own, kind, type_id, destination, priority, payload, length,
                                         signature_of(type_id), now, transfer_id, discriminator, out, out_len);
    lane->count = tecelume_frames(sent);
    lane->next = 0;
    memcpy(lane->records, out, lane->count * TECELUME_RECORD_SIZE);
    answered(SEND, sent.word, lane->count * TECELUME_RECORD_SIZE);
}

static void receive(uint32_t id, const uint8_t *data, size_t length, uint32_t interface_number)
{
    size_t out_len = once_in(50) ? below(512) : TECELUME_OUTPUT_SIZE;
    tecelume_result received = tecelume_receive(state, sizeof state, id, data, length, interface_number, now, out, out_len);
    answered(RECEIVE, received.word, tecelume_length(received));
}

/* The lane's next frame: as it was sent, damaged, twice or not at all; mostly by the lane's own interface. */
static void pass_on(struct lane *lane)
{
    uint8_t *record = lane->records + lane->next * TECELUME_RECORD_SIZE;
    uint32_t interface_number = once_in(30) ? below(TECELUME_INTERFACES + 1) : (uint32_t)(lane - lanes) % TECELUME_INTERFACES;
    if (once_in(40)) {
        uint8_t *byte = record + below(TECELUME_RECORD_SIZE);
        *byte ^= (uint8_t)(1u << below(8));
    }
    if (!once_in(60))
        receive(tecelume_record_id(record), tecelume_record_data(record), tecelume_record_length(record) % 9, interface_number);
    if (!once_in(60))
        lane->next++;
}

static void patch(void)
{
    uint32_t checksum = below(once_in(8) ? 0xFFFFFFFF : 65536);
    uint32_t old_byte = below(once_in(8) ? 0xFFFFFFFF : 256);
    uint32_t new_byte = below(once_in(8) ? 0xFFFFFFFF : 256);
    uint64_t bytes_after = number_to(511);
    if (once_in(100))
        bytes_after <<= 32;
    answered(PATCH, tecelume_patch(checksum, old_byte, new_byte, bytes_after).word, 0);
}

static void set_up_allocator(void)
{
    answered(ALLOCATOR_SETUP, tecelume_allocator_setup(allocator, sizeof allocator - once_in(5)), 0);
}

/* The next message of the node that is asking; a node's unique ID is its number in each byte. Now and then it is another message. */
static void allocate(void)
{
    static uint8_t node;
    static size_t asked;
    uint64_t marks[2] = {0, 0};
    size_t length = asked == 12 ? 5 : 7;
    memset(payload, node, sizeof payload);
    payload[0] = (uint8_t)(below(128) << 1 | (asked == 0));
    if (once_in(20))
        length = below(20);
    if (once_in(8))
        marks[0] = marks[1] = UINT64_MAX;
    for (uint32_t n = below(4); n > 0; n--)
        tecelume_mark(marks, below(128));
    uint32_t own = number_to(127);
    uint32_t source = once_in(20) ? number_to(127) : 0;
    size_t out_len = once_in(20) ? below(17) : TECELUME_REPLY_SIZE;
    tecelume_result given =
        tecelume_allocate(allocator, sizeof allocator, own, marks[0], marks[1], source, payload, length, now, out, out_len);
    size_t reply = tecelume_reply_length(given);
    answered(ALLOCATE, given.word, reply);
    asked = reply > 1 && reply < TECELUME_REPLY_SIZE ? reply - 1 : 0;
    if (asked == 0)
        node = (uint8_t)below(ALLOCATEES);
}

/* Definitions of a few lines each, which may nest each other; now and then too many, or a name twice. */
static void define(void)
{
    static const char *const types[] = {"a.A", "a.B", "a.C", "a.D", "a.E", "a.b.F", "a.G", "a.H", "a.I"};
    static const char *const lines[] = {
        "uint8[<9] x", "B b # nested", "C[0x10] c", "D d", "a.E e", "int8 X = -128", "@union", "---", "void7", "float16 f", "", "bool x",
        "wrong", "float64 Y = 1.7976931348623158e308", "uint64[99999999999999999999999] w",
    };
    enum { TYPES_GIVEN = sizeof types / sizeof types[0], LINES = sizeof lines / sizeof lines[0] };
    static uint8_t source[2000];
    uint8_t lengths[TYPES_GIVEN * TECELUME_LENGTHS_SIZE], records[TECELUME_DEFINITIONS_MAX * TECELUME_SIGNED_SIZE], *length = lengths;
    uint32_t count = once_in(20) ? TYPES_GIVEN : below(6);
    size_t at = 0, left = 0;
    for (uint32_t i = 0; i < count; i++) {
        const char *name = types[once_in(30) ? below(TYPES_GIVEN) : i];
        size_t name_len = strlen(name), from = at + name_len;
        memcpy(source + at, name, name_len);
        at = from;
        for (uint32_t n = below(3); n > 0; n--) {
            const char *line = lines[below(LINES)];
            memcpy(source + at, line, strlen(line));
            at += strlen(line);
            source[at++] = '\n';
        }
        length = tecelume_lengths(length, name_len, at - from);
    }
    size_t out_len = once_in(4) ? below(100) : sizeof out;
    tecelume_result given = tecelume_signatures(source, at, lengths, (size_t)(length - lengths), out, out_len, records, sizeof records);
    if (tecelume_number(given) == TECELUME_SUCCESS) {
        for (uint32_t i = 0; i < count; i++)
            left += tecelume_form_length(records + i * TECELUME_SIGNED_SIZE);
        add(records, count * TECELUME_SIGNED_SIZE);
    }
    answered(SIGNATURES, given.word, left);
}

enum { LINES_MAX = 12, RECORDS_MAX = 90, ID_AT = 8, LENGTH_AT = 12, DATA_AT = 13, END = 64 };

static uint8_t capture[TECELUME_CAPTURE_SIZE(RECORDS_MAX)];

static size_t put_hex(uint8_t *to, uint32_t digits)
{
    for (uint32_t i = 0; i < digits; i++)
        to[i] = (uint8_t)"0123456789ABCDEF"[below(16)];
    return digits;
}

static size_t put_line(uint8_t *to)
{
    size_t n = 0;
    for (uint32_t seconds = 1 + below(9); seconds > 0; seconds--)
        to[n++] = (uint8_t)('1' + below(9));
    to[n++] = '.';
    for (int i = 0; i < 3; i++)
        to[n++] = (uint8_t)('0' + below(10));
    to[n++] = ' ';
    n += put_hex(to + n, 8);
    for (uint32_t bytes = below(9); bytes > 0; bytes--) {
        to[n++] = ' ';
        n += put_hex(to + n, 2);
    }
    to[n++] = '\n';
    return n;
}

/* A log, now and then with a byte changed, to a capture; and that back, now and then with a byte changed or a record at fault. */
static void convert(void)
{
    size_t length = 0, lines = below(LINES_MAX);
    for (size_t i = 0; i < lines; i++)
        length += put_line(payload + length);
    if (length > 0 && once_in(6))
        payload[below((uint32_t)length)] = (uint8_t)below(128);
    size_t out_len = once_in(8) ? below(200) : sizeof out;
    tecelume_result result = tecelume_capture(payload, length, out, out_len);
    size_t size = (size_t)tecelume_output_length(result);
    answered(CAPTURE, result.word, size);
    if (size == 0)
        return;
    memcpy(capture, out, size);
    if (once_in(4))
        capture[below((uint32_t)size)] ^= 1;
    if (size > TECELUME_TRAILER_SIZE && once_in(4)) {
        capture[once_in(2) ? 0 : 12] ^= 0x11;
        seal(capture, size);
    }
    out_len = once_in(8) ? below(200) : sizeof out;
    result = tecelume_uncapture(capture, size, out, out_len);
    answered(UNCAPTURE, result.word, (size_t)tecelume_output_length(result));
}

static size_t recorded;

static void stamp(uint64_t time, const uint8_t *record)
{
    uint8_t *to = capture + TECELUME_STAMPED_SIZE * recorded++;
    for (size_t i = 0; i < ID_AT; i++)
        to[i] = (uint8_t)(time >> 8 * i);
    memcpy(to + ID_AT, record, TECELUME_RECORD_SIZE);
}

/* A few transfers of one node; or the longest; or a frame each from as many nodes as may be, and more. */
static void record_any(void)
{
    static const uint8_t single[TECELUME_RECORD_SIZE] = {0, 2, 0, 16, 1, 0xC5};
    uint8_t map[TECELUME_MAP_SIZE], record[TECELUME_RECORD_SIZE];
    uint32_t sort = below(8);
    uint32_t count = sort == 0 ? 1 : below(4);
    uint64_t time = now;
    tecelume_map_setup(map, sizeof map);
    for (uint32_t i = 0; i < count; i++) {
        uint32_t kind = below(3);
        uint32_t type_id = below(TYPES);
        uint32_t transfer_id = below(32);
        size_t length = sort == 0 ? 512 : below(40);
        for (size_t k = 0; k < length; k++)
            payload[k] = (uint8_t)below(256);
        time += once_in(3) ? 2000000 : 0;
        tecelume_result sent = tecelume_send(map, sizeof map, 4, kind, type_id, kind == 0 ? 0 : 8, 16, payload, length, signature_of(type_id), time,
                                             transfer_id, 0, out, sizeof out);
        for (size_t k = 0; k < tecelume_frames(sent); k++)
            stamp(time, out + k * TECELUME_RECORD_SIZE);
    }
    memcpy(record, single, sizeof record);
    for (uint32_t nodes = sort == 1 ? 64 + below(2) : 0; nodes > 0; nodes--) {
        record[0] = (uint8_t)nodes;
        stamp(time, record);
    }
}

/* A bit of a record; or a frame is full and no end; or one is lost. */
static void alter_record(void)
{
    uint8_t *record = capture + TECELUME_STAMPED_SIZE * (once_in(2) ? recorded - 1 : below((uint32_t)recorded));
    uint32_t way = below(4);
    if (way == 0) {
        record[DATA_AT + 7] = (uint8_t)(record[DATA_AT + record[LENGTH_AT] - 1] & ~END);
        record[LENGTH_AT] = 8;
    } else if (way == 1) {
        size_t after = (size_t)(capture + TECELUME_STAMPED_SIZE * --recorded - record);
        memmove(record, record + TECELUME_STAMPED_SIZE, after);
    } else {
        uint32_t at = below(way == 2 ? 5 : TECELUME_RECORD_SIZE);
        record[ID_AT + at] ^= (uint8_t)(1u << below(8));
    }
}

static void judge(void)
{
    uint8_t list[2 * TYPES * TECELUME_SUBSCRIPTION_SIZE], *next = list;
    for (uint32_t i = 0; i < 2 * TYPES; i++)
        next = tecelume_subscription(next, i % 2, i / 2, signature_of(i / 2));
    if (once_in(10))
        list[TECELUME_SUBSCRIPTION_SIZE * below(TYPES)] = (uint8_t)below(3);
    recorded = 0;
    record_any();
    if (recorded > 0 && once_in(2))
        alter_record();
    size_t size = trail(capture, recorded);
    if (once_in(20))
        capture[below((uint32_t)size)] ^= 1;
    answered(JUDGE, tecelume_judge_word(list, sizeof list, capture, size), 0);
}

/* Any frame, or a long transfer that never ends. */
static void receive_any(void)
{
    static uint8_t turn;
    uint8_t data[9];
    for (size_t i = 0; i < sizeof data; i++)
        data[i] = (uint8_t)below(256);
    if (once_in(3)) {
        uint32_t id = below(0xFFFFFFFF);
        id >>= below(8);
        size_t length = below(10);
        uint32_t interface_number = below(TECELUME_INTERFACES + 1);
        receive(id, data, length, interface_number);
    } else {
        data[7] = turn == 0 ? 128 : turn % 2 * 32;
        turn = (uint8_t)((turn + 1) % 80);
        receive(0x10000000 | 2u << 8 | 120, data, 8, 0);
    }
}

/* Long transfers of nine nodes at once, none of which ends: they need nearly all blocks. */
static void crowd(void)
{
    uint8_t data[8] = {0};
    uint32_t id = 0x10000000 | 2u << 8 | 100;
    for (unsigned i = 0; i < 64; i++) {
        data[7] = (uint8_t)(i == 0 ? 128 : i % 2 * 32);
        for (uint32_t node = 0; node < 9; node++)
            receive(id + node, data, sizeof data, 0);
    }
}

static void damage(void)
{
    uint8_t *byte = once_in(2) ? state + below(once_in(2) ? BLOCKS_AT : TECELUME_RECEIVER_SIZE) : maps[0] + below(sizeof maps);
    *byte = (uint8_t)below(256);
    byte = allocator + below(once_in(2) ? FIRST_ENTRIES : sizeof allocator);
    *byte = (uint8_t)below(256);
}

static void ask(void)
{
    uint32_t kind = below(3);
    uint32_t type_id = once_in(2) ? 341 : below(16400);
    answered(OTHERS, tecelume_signature(kind, type_id), 0);
    answered(OTHERS, tecelume_receiver_size() + tecelume_map_size() + tecelume_allocator_size(), 0);
}

static void step(void)
{
    struct lane *lane = lanes + below(LANES);
    uint32_t which = below(1000);
    now += once_in(3000) ? 2500000 : below(2000);
    if (once_in(8000))
        crowd();
    if (which < 2)
        damage();
    else if (which < 8)
        set_up();
    else if (which < 14)
        set_up_map();
    else if (which < 20)
        ask();
    else if (which < 21)
        set_up_allocator();
    else if (which < 120)
        allocate();
    else if (which < 150)
        define();
    else if (which < 190)
        convert();
    else if (which < 350)
        receive_any();
    else if (which < 370)
        patch();
    else if (which < 385)
        judge();
    else if (lane->next < lane->count)
        pass_on(lane);
    else
        send_on(lane);
}

int main(void)
{
    bool all = true;
    while (calls < CALLS)
        step();
    for (int entry = 0; entry < ENTRIES; entry++) {
        printf("%s:", names[entry]);
        for (uint32_t number = 0; number < NUMBERS; number++) {
            if (counts[entry][number] > 0)
                printf(" %lu of %lu", (unsigned long)counts[entry][number], (unsigned long)number);
            all = all && (counts[entry][number] > 0 || !(must[entry] >> number & 1));
        }
        printf("\n");
    }
    printf(all ? "every answer was given\n" : "an answer was NEVER given\n");
    return !all;
}
