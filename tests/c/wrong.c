/* Wrong libraries for header.c, batch.c, allocator.c, captures.c and judge.c; wrong_payloads.c has those of messages. The linker puts these functions in
 * front of the true ones (--wrap); the environment's WRONG names the one
 * thing that is wrong, or is the number of the one call whose answer is. tests/c/sentences says which sentence each must break. */
#include <stdbool.h>
#include <stdio.h>
#include <stdlib.h>
#include <string.h>

#include "seal.h"
#include "tecelume.h"
#include "wrong.h"

enum { GATHERED_COUNT = 8, TIME_SIZE = 8, ENTRIES = 9, TABLE = 26, ENTRY = 17 }; /* places in an allocator's state */
enum { START = 0x80, END = 0x40, TOGGLE = 0x20, TRANSFER_ID = 31, ID_AT = 55, SWITCH_DELAY = 1000000 };
/* of the first session: how many bytes it has gathered, the transfer ID that it expects, the toggle and twice the interface; free blocks */
enum { GATHERED = 1168, EXPECTED = 1170, FLAGS = 1171, FREE = 776, FREE_SIZE = 8 };

bool is(const char *name)
{
    const char *wrong = getenv("WRONG");
    return wrong != NULL && strcmp(wrong, name) == 0;
}

uint64_t answer(uint64_t right, uint64_t wrong)
{
    static unsigned calls;
    char number[16];
    snprintf(number, sizeof number, "%u", ++calls);
    if (!is(number))
        return right;
    fprintf(stderr, "call %u is answered wrongly\n", calls);
    return wrong;
}

/* One more or one less, but for the time 0. */
static uint64_t shifted(const char *later, const char *earlier, uint64_t time)
{
    return time == 0 ? 0 : time + is(later) - is(earlier);
}

/* A time of 32 bits that wraps, in 64. */
static uint64_t unwrapped(uint64_t time)
{
    static uint64_t last, wraps;
    wraps += time < last;
    last = time;
    return time + (wraps << 32);
}

/* ---- numbers ---- */

uint32_t __real_tecelume_version(void);
uint32_t __wrap_tecelume_version(void)
{
    uint32_t version = __real_tecelume_version();
    return (uint32_t)answer(version, version + 1);
}

uint64_t __real_tecelume_receiver_size(void);
uint64_t __wrap_tecelume_receiver_size(void)
{
    uint64_t size = __real_tecelume_receiver_size();
    return answer(size, size + 1);
}

uint64_t __real_tecelume_map_size(void);
uint64_t __wrap_tecelume_map_size(void)
{
    uint64_t size = __real_tecelume_map_size();
    return answer(size, size + 1);
}

uint64_t __real_tecelume_allocator_size(void);
uint64_t __wrap_tecelume_allocator_size(void)
{
    uint64_t size = __real_tecelume_allocator_size();
    return answer(size, size + 1);
}

uint64_t __real_tecelume_signature(uint32_t kind, uint32_t type_id);
uint64_t __wrap_tecelume_signature(uint32_t kind, uint32_t type_id)
{
    uint64_t signature = __real_tecelume_signature(kind, type_id);
    return answer(signature, signature == 0);
}

/* ---- setup ---- */

static uint32_t own_set_up;

uint32_t __real_tecelume_setup(uint8_t *state, size_t state_len, uint32_t own, const uint8_t *list, size_t list_len);
uint32_t __wrap_tecelume_setup(uint8_t *state, size_t state_len, uint32_t own, const uint8_t *list, size_t list_len)
{
    static const uint8_t zero[8];
    static bool again;
    if (is("setup-keeps-sessions") && again)
        return TECELUME_SUCCESS;
    if (is("setup-wants-a-signature") && list_len > 0 && memcmp(list + 5, zero, sizeof zero) == 0)
        return TECELUME_SETUP_REFUSED;
    if (is("first-subscription-only") && list_len > 0)
        list_len = TECELUME_SUBSCRIPTION_SIZE;
    again = true;
    own_set_up = own;
    uint32_t number = __real_tecelume_setup(state, state_len + is("short-state-set-up"), own, list, list_len);
    return (uint32_t)answer(number, OTHER);
}

uint32_t __real_tecelume_map_setup(uint8_t *map, size_t map_len);
uint32_t __wrap_tecelume_map_setup(uint8_t *map, size_t map_len)
{
    uint32_t number = __real_tecelume_map_setup(map, map_len + is("short-map-set-up"));
    return (uint32_t)answer(number, OTHER);
}

/* ---- reception ---- */

/* The number in place of the right one. */
static uint32_t reception(uint32_t number, const uint8_t *state)
{
    static bool dropped;
    dropped |= number == TECELUME_PAYLOAD_TOO_LONG;
    if (is("rest-is-taken") && dropped && number == TECELUME_NO_TRANSFER)
        return TECELUME_TAKEN;
    if (is("bare-ten") && number >= TECELUME_NO_TRANSFER && number <= TECELUME_OTHER_INTERFACE)
        return 10;
    if (is("unheard-unsubscribed") && number == TECELUME_TABLE_FULL)
        return TECELUME_NO_SUBSCRIPTION;
    if (is("zeros-accepted") && state[0] == 0 && number == TECELUME_STATE_FAULT)
        return TECELUME_NO_SUBSCRIPTION;
    if (is("no-block-as-table-full") && number == TECELUME_NO_BLOCK)
        return TECELUME_TABLE_FULL;
    if (is("block-fault-not-seen") && number == TECELUME_STATE_FAULT && state[FREE] == 0xFE)
        return TECELUME_TABLE_FULL;
    if (is("fault-not-seen") && number == TECELUME_STATE_FAULT)
        return TECELUME_TABLE_FULL;
    if (is("interface-fault-not-seen") && number == TECELUME_STATE_FAULT && state[FLAGS] == 2 * TECELUME_INTERFACES)
        return TECELUME_TABLE_FULL;
    return is("own-id-guarded") && state[0] != own_set_up ? (uint32_t)TECELUME_STATE_FAULT : number;
}

/* Another reason in place of the right one, for a frame of the first session's stream. `old` is a session that was. */
static uint32_t reason(uint32_t number, const uint8_t *state, uint8_t tail, bool old)
{
    bool start = (tail & START) != 0, other_id = (tail & TRANSFER_ID) != state[EXPECTED];
    bool in_hand = state[GATHERED] != 0 || state[GATHERED + 1] != 0, other_toggle = (tail & TOGGLE) / TOGGLE != state[FLAGS] % 2;
    if (is("start-32-before-34") && start && number == TECELUME_OTHER_INTERFACE && other_id)
        return TECELUME_WRONG_TRANSFER;
    if (is("start-33-before-32") && start && number == TECELUME_WRONG_TRANSFER && in_hand)
        return TECELUME_REPEATED_START;
    if (is("30-before-34") && !start && number == TECELUME_OTHER_INTERFACE && !in_hand)
        return TECELUME_NO_TRANSFER;
    if (is("32-before-30") && number == TECELUME_NO_TRANSFER && other_id && !old)
        return TECELUME_WRONG_TRANSFER;
    if (is("31-before-32") && !start && number == TECELUME_WRONG_TRANSFER && other_toggle)
        return TECELUME_WRONG_TOGGLE;
    if (is("old-session-answers-34") && number == TECELUME_NO_TRANSFER && old)
        return TECELUME_OTHER_INTERFACE;
    if (is("other-id-in-hand-answers-30") && !start && number == TECELUME_WRONG_TRANSFER)
        return TECELUME_NO_TRANSFER;
    return number;
}

static void touch(uint32_t number, uint8_t *state, uint8_t *out, size_t out_len)
{
    static uint8_t had[FREE_SIZE];
    if (is("26-keeps-blocks") && number == TECELUME_NO_BLOCK)
        memcpy(state + FREE, had, sizeof had);
    memcpy(had, state + FREE, sizeof had);
    if (is("output-touched") && number != TECELUME_HANDED_OUT && out_len > 0)
        out[0] ^= 1;
    if (is("output-touched-after-payload") && number == TECELUME_HANDED_OUT)
        out[out_len - 1] ^= 1;
    bool refused = number >= TECELUME_ID_TOO_LARGE && number <= TECELUME_TABLE_FULL;
    bool for_a_reason = number >= TECELUME_WRONG_TOGGLE && number <= TECELUME_OTHER_INTERFACE;
    if ((is("refusal-touches-state") && refused) || (is("reason-touches-state") && for_a_reason) ||
        (is("30-touches-state") && number == TECELUME_NO_TRANSFER))
        state[TECELUME_RECEIVER_SIZE - 1]++;
}

uint64_t __real_tecelume_receive_word(uint8_t *state, size_t state_len, uint32_t id, const uint8_t *frame, size_t frame_len,
                                      uint32_t interface_number, uint64_t time, uint8_t *out, size_t out_len);

/* What a reception takes, but for the interface. */
struct arrival {
    uint8_t *state;
    size_t state_len;
    uint32_t id;
    const uint8_t *frame;
    size_t frame_len;
    uint64_t time;
    uint8_t *out;
    size_t out_len;
};

static uint64_t receive(const struct arrival *a, uint32_t interface_number)
{
    return __real_tecelume_receive_word(a->state, a->state_len, a->id, a->frame, a->frame_len, interface_number, a->time, a->out,
                                        a->out_len);
}

/* The number in place of the call, if interfaces are read wrongly; OTHER for none. `age` counts from the last start taken. */
static uint32_t in_place(const struct arrival *a, uint32_t interface_number, uint64_t age)
{
    static uint8_t last_start;
    uint8_t tail = a->frame_len > 0 ? a->frame[a->frame_len - 1] : 0;
    bool repeated = (tail & START) != 0 && (tail & TRANSFER_ID) == (last_start & TRANSFER_ID);
    if ((tail & START) != 0)
        last_start = tail;
    if (is("never-switches") && interface_number != 0 && age > 0)
        return TECELUME_OTHER_INTERFACE;
    if (is("anonymous-by-one-interface") && (a->id & 255) == 0 && interface_number != 0)
        return TECELUME_OTHER_INTERFACE;
    if (is("repeat-passed-over") && repeated && age <= 2 * SWITCH_DELAY)
        return TECELUME_REPEATED_START;
    if (is("interface-before-2-and-3") && interface_number >= TECELUME_INTERFACES)
        return TECELUME_NO_INTERFACE;
    if (is("interface-after-4") && interface_number >= TECELUME_INTERFACES && (a->id & 255) == 0x80)
        return TECELUME_SERVICE_UNNAMED;
    return OTHER;
}

static uint64_t receive_by(const struct arrival *a, uint32_t interface_number, uint64_t age)
{
    bool start = a->frame_len > 0 && (a->frame[a->frame_len - 1] & START) != 0;
    uint32_t number = in_place(a, interface_number, age);
    if (number != OTHER)
        return number;
    if (is("interface-ignored") || (is("interface-3-accepted") && interface_number >= TECELUME_INTERFACES))
        interface_number = 0;
    uint64_t word = receive(a, interface_number);
    static const uint8_t none[FREE_SIZE];
    bool single = start && (a->frame[a->frame_len - 1] & END) != 0, none_free = memcmp(a->state + FREE, none, sizeof none) == 0;
    if (is("single-frame-needs-a-block") && single && word % 256 == TECELUME_HANDED_OUT && none_free)
        return TECELUME_NO_BLOCK;
    if (is("last-block-not-given") && word == TECELUME_TAKEN && none_free)
        return TECELUME_NO_BLOCK;
    if (is("far-ahead-switches") && word == TECELUME_OTHER_INTERFACE && start && age > SWITCH_DELAY)
        word = receive(a, 0);
    for (uint32_t i = 0; i < TECELUME_INTERFACES && is("other-interface-taken") && word == TECELUME_OTHER_INTERFACE; i++)
        word = receive(a, i);
    return word;
}

uint64_t __wrap_tecelume_receive_word(uint8_t *state, size_t state_len, uint32_t id, const uint8_t *frame, size_t frame_len,
                                      uint32_t interface_number, uint64_t time, uint8_t *out, size_t out_len)
{
    static uint64_t taken, counted; /* when the last start was taken, and from when the wrong age counts */
    bool start = frame_len > 0 && (frame[frame_len - 1] & START) != 0;
    uint64_t seen = shifted("session-old-too-early", "session-old-too-late", start ? time : time - (counted - taken));
    if (is("session-wraps-counted"))
        seen = unwrapped(time);
    struct arrival a = {state, state_len, id, frame, frame_len, seen, out, out_len};
    uint64_t age = time > taken ? time - taken : 0, word = receive_by(&a, interface_number, age);
    uint32_t number = (uint32_t)(word & 255);
    uint32_t wrong = reason(reception(number, state), state, frame_len > 0 ? frame[frame_len - 1] : 0, age > 2 * SWITCH_DELAY);
    if (start && number <= TECELUME_HANDED_OUT)
        taken = counted = time;
    if (start ? is("age-from-last-start-seen") : is("age-from-last-frame"))
        counted = time;
    touch(number, state, out, out_len);
    return answer(wrong == number ? word : wrong, OTHER);
}

/* ---- several frames ---- */

enum { RECORDS = 64 };

/* What a batch is done on: records that may be changed, and the true call. */
struct batch {
    uint8_t *state, *results, *out, records[(RECORDS + 1) * TECELUME_ARRIVAL_SIZE];
    size_t state_len, records_len, results_len, out_len;
};

uint64_t __real_tecelume_receive_many_word(uint8_t *state, size_t state_len, const uint8_t *records, size_t records_len, uint8_t *results,
                                           size_t results_len, uint8_t *out, size_t out_len);

static uint64_t receive_many(const struct batch *b)
{
    return __real_tecelume_receive_many_word(b->state, b->state_len, b->records, b->records_len, b->results, b->results_len, b->out, b->out_len);
}

static size_t payload_length(const struct batch *b, size_t i)
{
    return tecelume_length(tecelume_result_at(b->results, i));
}

/* The records as a wrong library reads them. */
static void change_records(struct batch *b)
{
    for (size_t i = 0; i < b->records_len / TECELUME_ARRIVAL_SIZE; i++) {
        uint8_t *record = b->records + i * TECELUME_ARRIVAL_SIZE;
        if (is("batch-ignores-interfaces"))
            record[12] = 0;
        if (is("batch-cuts-lengths") && record[13] > 8)
            record[13] = 8;
    }
    if (is("batch-forgets-a-frame") && b->records_len >= 2 * TECELUME_ARRIVAL_SIZE)
        memcpy(b->records, b->records + TECELUME_ARRIVAL_SIZE, TECELUME_ARRIVAL_SIZE);
    if (is("batch-reads-a-part-of-a-record"))
        b->records_len += TECELUME_ARRIVAL_SIZE - 1;
}

/* Record by record, up to one after which a wrong library ends; each with the front of the output buffer, or what is left of it. */
static uint64_t receive_one_by_one(struct batch *b)
{
    struct batch one = *b;
    size_t used = 0, past = 0, most = b->records_len / TECELUME_ARRIVAL_SIZE;
    size_t least = is("batch-needs-511-bytes") ? TECELUME_OUTPUT_SIZE - 1 : is("batch-needs-513-bytes") ? TECELUME_OUTPUT_SIZE + 1 : TECELUME_OUTPUT_SIZE;
    bool ends = false;
    one.records_len = TECELUME_ARRIVAL_SIZE;
    while (used < most && (used + 1) * TECELUME_RESULT_SIZE <= b->results_len && !ends) {
        memcpy(one.records, b->records + used * TECELUME_ARRIVAL_SIZE, TECELUME_ARRIVAL_SIZE);
        one.results = b->results + used * TECELUME_RESULT_SIZE;
        one.results_len = TECELUME_RESULT_SIZE;
        one.out = b->out + (is("batch-writes-over-payloads") ? 0 : past);
        one.out_len = b->out_len - past;
        if (tecelume_number((tecelume_result){receive_many(&one)}) != TECELUME_SUCCESS)
            return TECELUME_STATE_FAULT;
        size_t length = payload_length(&one, 0);
        uint32_t number = tecelume_number(tecelume_result_at(one.results, 0));
        past += length;
        used++;
        ends = (length > 0 && (is("batch-ends-at-every-payload") || b->out_len - past < least)) ||
               (is("batch-ends-at-an-empty-payload") && number == TECELUME_HANDED_OUT && length == 0) ||
               (is("batch-ends-at-a-refusal") && number == TECELUME_DATA_LENGTH);
    }
    return (uint64_t)used << 8;
}

static bool is_one_by_one(void)
{
    return is("batch-writes-over-payloads") || is("batch-ends-at-every-payload") || is("batch-ends-at-an-empty-payload") ||
           is("batch-ends-at-a-refusal") || is("batch-needs-511-bytes") || is("batch-needs-513-bytes");
}

static uint64_t receive_many_wrongly(struct batch *b)
{
    change_records(b);
    uint64_t word = is_one_by_one() ? receive_one_by_one(b) : receive_many(b);
    size_t used = (size_t)(word >> 8), past = 0;
    for (size_t i = 0; i < used; i++)
        past += payload_length(b, i);
    if (word == TECELUME_STATE_FAULT) {
        if (is("batch-fault-writes-a-result") && b->results_len > 0)
            b->results[0] = TECELUME_STATE_FAULT;
        return is("batch-fault-not-told") || (is("batch-fault-with-records-only") && b->records_len == 0) ? TECELUME_SUCCESS : word;
    }
    if (is("batch-touches-results-after-the-last") && used * TECELUME_RESULT_SIZE < b->results_len)
        b->results[used * TECELUME_RESULT_SIZE] ^= 1;
    if (is("batch-touches-output-after-payloads") && past < b->out_len)
        b->out[past] ^= 1;
    return word + (is("batch-counts-one-more") ? 256 : 0);
}

uint64_t __wrap_tecelume_receive_many_word(uint8_t *state, size_t state_len, const uint8_t *records, size_t records_len, uint8_t *results,
                                           size_t results_len, uint8_t *out, size_t out_len);
uint64_t __wrap_tecelume_receive_many_word(uint8_t *state, size_t state_len, const uint8_t *records, size_t records_len, uint8_t *results,
                                           size_t results_len, uint8_t *out, size_t out_len)
{
    static struct batch b;
    b.state = state;
    b.results = results;
    b.out = out;
    b.state_len = state_len;
    b.records_len = records_len;
    b.results_len = results_len;
    b.out_len = out_len;
    if (records_len > 0)
        memcpy(b.records, records, records_len);
    return answer(receive_many_wrongly(&b), OTHER);
}

/* ---- sending ---- */

/* Lets a type's transfer IDs go on even where its entry was replaced. */
static uint64_t going_on(uint32_t type_id, uint64_t word, uint8_t *out)
{
    static uint8_t sent[65536];
    size_t frames = (size_t)(word >> 8 & 127);
    uint64_t transfer_id = sent[type_id]++ & TRANSFER_ID;
    for (size_t i = 0; i < frames; i++) {
        uint8_t *record = out + i * TECELUME_RECORD_SIZE;
        uint8_t *tail = record + 4 + tecelume_record_length(record);
        *tail = (uint8_t)((*tail & ~TRANSFER_ID) | (uint8_t)transfer_id);
    }
    return frames << 8 | transfer_id << ID_AT;
}

/* The word in place of the right one. */
static uint64_t dispatch(uint64_t word, uint32_t type_id, bool was_empty, uint8_t *map, uint8_t *out, size_t out_len)
{
    uint32_t number = (uint32_t)(word & 255);
    if (is("zero-map-at-fault") && was_empty)
        return TECELUME_STATE_FAULT;
    if (is("map-fault-not-seen") && number == TECELUME_STATE_FAULT)
        return TECELUME_TABLE_FULL;
    if (is("refused-send-touches-map") && number != TECELUME_SUCCESS)
        map[TECELUME_MAP_SIZE - 1] ^= 1;
    if (is("refused-send-touches-output") && number != TECELUME_SUCCESS)
        out[0] ^= 1;
    if (is("output-touched-after-records") && number == TECELUME_SUCCESS)
        out[out_len - 1] ^= 1;
    if (is("refusal-tells-an-id") && number != TECELUME_SUCCESS)
        return word | (uint64_t)1 << ID_AT;
    if (is("replaced-topic-goes-on") && number == TECELUME_SUCCESS)
        return going_on(type_id, word, out);
    return is("transfer-id-not-told") ? word & 0x7FFF : word;
}

uint64_t __real_tecelume_send_word(uint8_t *map, size_t map_len, uint32_t own, uint32_t transfer_type, uint32_t type_id,
                                   uint32_t destination, uint32_t priority, const uint8_t *payload, size_t payload_len, uint64_t signature,
                                   uint64_t time, uint32_t transfer_id, uint32_t discriminator, uint8_t *out, size_t out_len);
uint64_t __wrap_tecelume_send_word(uint8_t *map, size_t map_len, uint32_t own, uint32_t transfer_type, uint32_t type_id,
                                   uint32_t destination, uint32_t priority, const uint8_t *payload, size_t payload_len, uint64_t signature,
                                   uint64_t time, uint32_t transfer_id, uint32_t discriminator, uint8_t *out, size_t out_len)
{
    static const uint8_t empty[TECELUME_MAP_SIZE];
    bool was_empty = memcmp(map, empty, sizeof empty) == 0;
    uint64_t seen = is("entry-wraps-counted") ? unwrapped(time) : shifted("entry-replaced-too-early", "entry-replaced-too-late", time);
    if (is("own-id-in-the-topic") && own != 0)
        type_id += own * 100;
    if (is("destination-not-in-the-topic") && transfer_type == TECELUME_REQUEST)
        destination = 1;
    if (is("response-in-the-map") && transfer_type == TECELUME_RESPONSE)
        transfer_type = TECELUME_REQUEST;
    if (is("response-under-another-id") && transfer_type == TECELUME_RESPONSE)
        transfer_id = (transfer_id + 1) & TRANSFER_ID;
    if (is("more-room-asked"))
        out_len -= 1;
    uint64_t word = __real_tecelume_send_word(map, map_len, own, transfer_type, type_id, destination, priority, payload, payload_len,
                                              signature, seen, transfer_id, discriminator, out, out_len + is("less-room-asked"));
    return answer(dispatch(word, type_id, was_empty, map, out, out_len), OTHER);
}

/* ---- correcting a checksum ---- */

uint64_t __real_tecelume_patch_word(uint32_t checksum, uint32_t old_byte, uint32_t new_byte, uint64_t bytes_after);
uint64_t __wrap_tecelume_patch_word(uint32_t checksum, uint32_t old_byte, uint32_t new_byte, uint64_t bytes_after)
{
    uint64_t after = is("correction-cuts-the-count") ? (uint32_t)bytes_after : bytes_after;
    if (is("correction-forgets-the-old-byte"))
        old_byte = 0;
    if (is("correction-knows-the-old-byte") && old_byte == (22 ^ 1)) /* in place 3 the sentence has 22 */
        old_byte = 22;
    if (is("correction-loses-the-checksum"))
        checksum = 0;
    if (is("correction-counts-one-less") && after > 0)
        after--;
    if ((is("correction-refuses-511") && after == 511) || (is("correction-takes-512") && after == 512))
        after ^= 511 ^ 512;
    uint64_t word = __real_tecelume_patch_word(checksum, old_byte, new_byte, after);
    if (is("correction-keeps-high-bits"))
        word |= (uint64_t)(checksum >> 16) << 24;
    return answer(word, OTHER);
}

/* ---- handing out node IDs ---- */

uint32_t __real_tecelume_allocator_setup(uint8_t *state, size_t state_len);
uint32_t __wrap_tecelume_allocator_setup(uint8_t *state, size_t state_len)
{
    uint32_t number = __real_tecelume_allocator_setup(state, state_len + is("short-allocator-set-up"));
    return (uint32_t)answer(number, OTHER);
}

uint64_t __real_tecelume_allocate_word(uint8_t *state, size_t state_len, uint32_t own, uint64_t marks_low, uint64_t marks_high,
                                       uint32_t source, const uint8_t *payload, size_t payload_len, uint64_t time, uint8_t *out,
                                       size_t out_len);

/* What an allocation takes. */
struct question {
    uint8_t *state;
    uint32_t own;
    uint64_t marks[2];
    uint32_t source;
    uint8_t payload[TECELUME_REPLY_SIZE + 1];
    size_t payload_len;
    uint64_t time;
    uint8_t *out;
    size_t out_len;
};

static uint64_t allocate(const struct question *q)
{
    return __real_tecelume_allocate_word(q->state, TECELUME_ALLOCATOR_SIZE, q->own, q->marks[0], q->marks[1], q->source, q->payload,
                                         q->payload_len, q->time, q->out, q->out_len);
}

static bool is_marked(const struct question *q, uint32_t node_id)
{
    return (q->marks[node_id / 64] >> node_id % 64 & 1) != 0;
}

/* The time of the last message processed. */
static uint64_t kept_time(const uint8_t *state)
{
    uint64_t time = 0;
    for (int i = 0; i < TIME_SIZE; i++)
        time |= (uint64_t)state[i] << (8 * i);
    return time;
}

/* Changes what the call is about. */
static void misread_marks(struct question *q)
{
    static uint64_t kept[2];
    for (int i = 0; i < 2; i++) {
        kept[i] |= q->marks[i];
        if (is("marks-kept"))
            q->marks[i] = kept[i];
        if (is("marks-ignored") && q->marks[i] != UINT64_MAX)
            q->marks[i] = 0;
    }
    if (is("marks-of-64-ignored"))
        q->marks[1] &= ~(uint64_t)1;
    if (is("marks-swapped")) {
        uint64_t low = q->marks[0];
        q->marks[0] = q->marks[1];
        q->marks[1] = low;
    }
}

static void misread(struct question *q)
{
    bool last = q->payload_len == 5, first = q->payload_len == 7 && (q->payload[0] & 1) != 0;
    misread_marks(q);
    if (is("own-id-given") && q->own >= 1 && q->own <= 127)
        q->own = 127;
    if (is("own-id-cut"))
        q->own &= 255;
    if (is("source-cut"))
        q->source &= 255;
    if (is("named-source-answered"))
        q->source = 0;
    if (is("preference-ignored"))
        q->payload[0] &= 1;
    if (is("follow-up-too-early") && q->time == kept_time(q->state) + 500000)
        q->time++;
    if (is("follow-up-too-late") && q->time == kept_time(q->state) + 500001)
        q->time--;
    if ((is("earlier-is-late") && q->time < kept_time(q->state)) || (is("other-node-taken") && first))
        q->state[GATHERED_COUNT] = 0;
    if (is("table-forgotten") && last)
        q->state[ENTRIES] = 0;
    if (is("marked-entry-forgotten") && last && q->state[ENTRIES] > 0 && is_marked(q, q->state[TABLE + ENTRY - 1]))
        q->state[ENTRIES] = 0;
}

/* The number in place of the call; OTHER for none. */
static uint32_t refused(const struct question *q)
{
    static const uint8_t zero[TECELUME_ALLOCATOR_SIZE];
    bool whole = q->payload_len == 5;
    if (is("zero-allocator-at-fault") && memcmp(q->state, zero, sizeof zero) == 0)
        return TECELUME_STATE_FAULT;
    if (is("most-room-asked") && q->out_len < TECELUME_REPLY_SIZE)
        return TECELUME_OUTPUT_TOO_SMALL;
    if (is("room-before-21") && whole && q->out_len == 0)
        return TECELUME_OUTPUT_TOO_SMALL;
    if (is("none-free-for-known") && whole && q->marks[0] == UINT64_MAX)
        return TECELUME_NONE_FREE;
    if (is("named-source-before-15") && q->source != 0 && q->payload_len == 0)
        return TECELUME_SUCCESS;
    if (is("node-id-guarded") && q->state[TABLE + ENTRY - 1] == 99)
        return TECELUME_STATE_FAULT;
    return OTHER;
}

/* Answers a message that comes twice as it did at first. */
static uint64_t allocate_again(const struct question *q)
{
    static uint8_t before[TECELUME_ALLOCATOR_SIZE], last[sizeof q->payload];
    if (memcmp(last, q->payload, sizeof last) == 0)
        memcpy(q->state, before, sizeof before);
    memcpy(last, q->payload, sizeof last);
    memcpy(before, q->state, sizeof before);
    return allocate(q);
}

/* Changes what the call leaves. */
static void touch_allocation(const struct question *q, const uint8_t *before, uint64_t word)
{
    uint32_t number = (uint32_t)(word & 255);
    size_t entries = q->state[ENTRIES];
    if (is("none-free-keeps-gathered") && number == TECELUME_NONE_FREE)
        q->state[GATHERED_COUNT] = before[GATHERED_COUNT];
    if (is("refused-allocation-touches-state") && number != TECELUME_SUCCESS)
        q->state[TECELUME_ALLOCATOR_SIZE - 1] ^= 1;
    if (is("refused-allocation-touches-output") && number != TECELUME_SUCCESS && q->out_len > 0)
        q->out[0] ^= 1;
    if (is("output-touched-after-reply") && number == TECELUME_SUCCESS)
        q->out[q->out_len] ^= 1;
    if (is("ignored-touches-state") && word == TECELUME_SUCCESS)
        q->state[0] ^= 1;
    if (is("id-given-twice") && entries > before[ENTRIES] && before[ENTRIES] > 0)
        q->out[0] = (uint8_t)(before[TABLE + ENTRY - 1] << 1);
    if (is("entries-as-they-come") && entries > before[ENTRIES])
        memmove(q->state + TABLE, before + TABLE, ENTRY * before[ENTRIES]);
}

uint64_t __wrap_tecelume_allocate_word(uint8_t *state, size_t state_len, uint32_t own, uint64_t marks_low, uint64_t marks_high,
                                       uint32_t source, const uint8_t *payload, size_t payload_len, uint64_t time, uint8_t *out,
                                       size_t out_len)
{
    uint8_t before[TECELUME_ALLOCATOR_SIZE];
    struct question q = {state, own, {marks_low, marks_high}, source, {0}, payload_len, time, out, out_len};
    memcpy(before, state, state_len < sizeof before ? state_len : sizeof before);
    memcpy(q.payload, payload, payload_len < sizeof q.payload ? payload_len : sizeof q.payload);
    misread(&q);
    uint32_t number = refused(&q);
    uint64_t word = number != OTHER ? number : is("copy-answered") ? allocate_again(&q) : allocate(&q);
    touch_allocation(&q, before, word);
    if (is("allocator-fault-not-seen") && word == TECELUME_STATE_FAULT)
        word = TECELUME_SUCCESS;
    return answer(word, OTHER);
}

/* ---- type definitions ---- */

/* The arguments of a call. */
struct texts {
    const uint8_t *source, *lengths;
    size_t source_len, lengths_len;
    uint8_t *out, *records;
    size_t out_len, records_len;
};

uint64_t __real_tecelume_signatures_word(const uint8_t *source, size_t source_len, const uint8_t *lengths, size_t lengths_len, uint8_t *out,
                                         size_t out_len, uint8_t *records, size_t records_len);

static uint64_t signatures(const struct texts *t)
{
    return __real_tecelume_signatures_word(t->source, t->source_len, t->lengths, t->lengths_len, t->out, t->out_len, t->records,
                                           t->records_len);
}

/* Changes the arguments. */
static void misread_texts(struct texts *t)
{
    if (is("seven-definitions-at-most") && t->lengths_len / TECELUME_LENGTHS_SIZE == TECELUME_DEFINITIONS_MAX)
        t->source_len = 0;
    if (is("ninth-definition-ignored") && t->lengths_len / TECELUME_LENGTHS_SIZE > TECELUME_DEFINITIONS_MAX)
        t->lengths_len = TECELUME_DEFINITIONS_MAX * TECELUME_LENGTHS_SIZE;
    if (is("records-not-counted") && t->records_len % TECELUME_SIGNED_SIZE == TECELUME_SIGNED_SIZE - 1)
        t->records_len++;
}

/* The number in place of the call; OTHER for none. */
static uint32_t refused_texts(const struct texts *t)
{
    size_t left = t->lengths_len % TECELUME_LENGTHS_SIZE;
    if (is("odd-lengths-refused") && left != 0)
        return TECELUME_DEFINITIONS_TOO_LARGE;
    if (is("nothing-refused") && t->lengths_len == 0)
        return TECELUME_DEFINITIONS_TOO_LARGE;
    if (is("room-looked-at-first") && t->out_len == 0 && t->lengths_len > 0)
        return TECELUME_OUTPUT_TOO_SMALL;
    if (is("more-room-for-forms") && t->out_len < 200 && t->lengths_len > 0)
        return TECELUME_OUTPUT_TOO_SMALL;
    return OTHER;
}

/* Changes what the call leaves, and its word. */
static uint64_t touch_texts(const struct texts *t, uint64_t word)
{
    uint32_t number = (uint32_t)(word & 255);
    bool done = number == TECELUME_SUCCESS && t->lengths_len >= TECELUME_LENGTHS_SIZE;
    if (is("refusal-touches-forms") && number != TECELUME_SUCCESS)
        t->out[0] ^= 1;
    if (is("refusal-touches-records") && number != TECELUME_SUCCESS)
        t->records[0] ^= 1;
    if (is("form-altered") && done)
        t->out[5] ^= 1;
    if (is("signature-high-byte-first") && done) {
        uint8_t byte = t->records[4];
        t->records[4] = t->records[11];
        t->records[11] = byte;
    }
    if (is("touches-behind-the-records") && done)
        t->records[t->records_len - 1] ^= 1;
    if (number != TECELUME_NOT_IN_GRAMMAR)
        return word;
    if (is("lines-from-0") && word >> 16 > 0)
        return word - ((uint64_t)1 << 16);
    if (is("definitions-from-0"))
        return word - ((uint64_t)1 << 8);
    if (is("place-not-told"))
        return number;
    return word;
}

uint64_t __wrap_tecelume_signatures_word(const uint8_t *source, size_t source_len, const uint8_t *lengths, size_t lengths_len, uint8_t *out,
                                         size_t out_len, uint8_t *records, size_t records_len)
{
    struct texts t = {source, lengths, source_len, lengths_len, out, records, out_len, records_len};
    misread_texts(&t);
    uint32_t number = refused_texts(&t);
    uint64_t word = number != OTHER ? number : signatures(&t);
    word = touch_texts(&t, word);
    if (is("large-length-accepted") && word == TECELUME_DEFINITIONS_TOO_LARGE && lengths_len == TECELUME_LENGTHS_SIZE)
        word = TECELUME_SUCCESS;
    return answer(word, OTHER);
}

/* ---- captures ---- */

uint64_t __real_tecelume_capture_word(const uint8_t *log, size_t log_len, uint8_t *out, size_t out_len);
uint64_t __wrap_tecelume_capture_word(const uint8_t *log, size_t log_len, uint8_t *out, size_t out_len)
{
    size_t room = out_len + is("less-room-for-a-capture") - (is("more-room-for-a-capture") && out_len > 0);
    if (is("empty-log-refused") && log_len == 0)
        return TECELUME_LINE_NOT_WELL_FORMED;
    if (is("room-before-18") && out_len == 0)
        return TECELUME_OUTPUT_TOO_SMALL;
    while (is("unclosed-line-left-out") && log_len > 0 && log[log_len - 1] != '\n')
        log_len--;
    uint64_t word = __real_tecelume_capture_word(log, log_len, out, room);
    if (is("refused-capture-touches-output") && word == TECELUME_LINE_NOT_WELL_FORMED)
        out[0] ^= 1;
    if (is("output-touched-after-capture") && (word & 255) == TECELUME_SUCCESS)
        out[word >> 8] ^= 1;
    return answer(word, OTHER);
}

uint64_t __real_tecelume_uncapture_word(const uint8_t *capture, size_t capture_len, uint8_t *out, size_t out_len);

/* The number in place of the call; OTHER for none. */
static uint32_t misjudged(const uint8_t *capture, size_t capture_len, size_t out_len)
{
    size_t count = tecelume_capture_count(capture, capture_len);
    if (is("preface-refused") && capture_len > TECELUME_CAPTURE_SIZE(count))
        return TECELUME_NO_CAPTURE;
    if (is("fewer-bytes-before-the-trailer") && count > 0 && capture_len == TECELUME_CAPTURE_SIZE(count) - 1)
        return TECELUME_SUCCESS;
    if (is("room-before-22") && out_len == 0 && count > 0)
        return TECELUME_OUTPUT_TOO_SMALL;
    return OTHER;
}

/* The word in place of the right one, by the length in the second record. */
static uint64_t reread(uint64_t word, const uint8_t *capture, size_t capture_len)
{
    bool above = capture_len > (size_t)2 * TECELUME_STAMPED_SIZE && capture[TECELUME_STAMPED_SIZE + 12] > 8;
    if (is("23-before-22") && word == TECELUME_NO_CAPTURE && above)
        return TECELUME_NOT_CARRIED;
    if (is("length-above-8-cut") && word == TECELUME_NOT_CARRIED && above)
        return TECELUME_SUCCESS;
    return is("length-of-ten-bits") ? word & 0x3FFFF : word;
}

uint64_t __wrap_tecelume_uncapture_word(const uint8_t *capture, size_t capture_len, uint8_t *out, size_t out_len)
{
    size_t room = out_len + is("less-room-for-a-log") - (is("more-room-for-a-log") && out_len > 0);
    uint32_t number = misjudged(capture, capture_len, out_len);
    if (number != OTHER)
        return number;
    uint64_t word = __real_tecelume_uncapture_word(capture, capture_len, out, room);
    if (is("refused-uncapture-touches-output") && word == TECELUME_NO_CAPTURE)
        out[0] ^= 1;
    if (is("output-touched-after-log") && (word & 255) == TECELUME_SUCCESS)
        out[word >> 8] ^= 1;
    return answer(reread(word, capture, capture_len), OTHER);
}

/* ---- checking a sender ---- */

enum { TIME_BYTES = 8, ID_AT_BYTE = 8, LENGTH_AT = 12, DATA_AT = 13, DATA_MAX = 8, ID_BITS = 29 };
enum { CAPTURE_MAX = 10000 };

static uint64_t get(const uint8_t *bytes, size_t count)
{
    uint64_t value = 0;
    while (count > 0)
        value = value << 8 | bytes[--count];
    return value;
}

static void put(uint8_t *bytes, uint64_t value, size_t count)
{
    for (size_t i = 0; i < count; i++)
        bytes[i] = (uint8_t)(value >> 8 * i);
}

/* A record as a judge sees it that has one rule wrong. */
static void alter(uint8_t *record)
{
    uint64_t time = get(record, TIME_BYTES);
    uint32_t id = (uint32_t)get(record + ID_AT_BYTE, 4);
    bool service = (id & 128) != 0;
    if (is("judge-counts-responses") && service)
        id |= 1 << 15;
    if (is("judge-requests-free") && service)
        id &= ~((uint32_t)1 << 15);
    if (is("judge-joins-nodes") && (id & 127) != 0)
        id |= 127;
    if (is("judge-priority-free"))
        id &= 0xFFFFFF;
    if (is("judge-follows-anonymous") && !service && (id & 127) == 0)
        id = (id & 0x1F000300) | 99;
    if (is("judge-cuts-the-id"))
        id &= ((uint32_t)1 << ID_BITS) - 1;
    if (is("judge-cuts-the-length") && record[LENGTH_AT] > DATA_MAX)
        record[LENGTH_AT] = DATA_MAX;
    if (is("judge-gap-shorter"))
        time += time > 1 ? 1 : 0;
    if (is("judge-no-gap"))
        time = 0;
    if (is("judge-times-of-32-bits"))
        time &= 0xFFFFFFFF;
    if (is("judge-reads-unused-bytes") && record[LENGTH_AT] < DATA_MAX && record[LENGTH_AT] > 0 && record[DATA_AT + DATA_MAX - 1] != 0)
        record[DATA_AT + record[LENGTH_AT] - 1] = record[DATA_AT + DATA_MAX - 1];
    put(record, time, TIME_BYTES);
    put(record + ID_AT_BYTE, id, 4);
}

uint64_t __real_tecelume_judge_word(const uint8_t *list, size_t list_len, const uint8_t *capture, size_t capture_len);

/* The word for a capture whose records are so altered. */
static uint64_t judge_altered(const uint8_t *list, size_t list_len, const uint8_t *capture, size_t capture_len)
{
    static uint8_t copy[CAPTURE_MAX];
    uint64_t word = __real_tecelume_judge_word(list, list_len, capture, capture_len);
    size_t size = TECELUME_CAPTURE_SIZE(tecelume_capture_count(capture, capture_len));
    if (word == TECELUME_NO_CAPTURE || word == TECELUME_SETUP_REFUSED)
        return word;
    memcpy(copy, capture + capture_len - size, size);
    for (size_t at = 0; at + TECELUME_TRAILER_SIZE < size; at += TECELUME_STAMPED_SIZE)
        alter(copy + at);
    seal(copy, size);
    return __real_tecelume_judge_word(list, list_len, copy, size);
}

/* The word in place of the right one. */
static uint64_t verdict(uint64_t word, const uint8_t *capture, size_t capture_len)
{
    size_t count = tecelume_capture_count(capture, capture_len), size = TECELUME_CAPTURE_SIZE(count);
    uint64_t number = word & 255, last = count == 0 ? 0 : (uint64_t)(count - 1) << 8;
    const uint8_t *record = capture + capture_len - TECELUME_TRAILER_SIZE - (count == 0 ? 0 : TECELUME_STAMPED_SIZE);
    bool fails = number != TECELUME_SUCCESS && number != TECELUME_NO_CAPTURE && number != TECELUME_SETUP_REFUSED;
    bool cut = number == TECELUME_SUCCESS && count > 0 && record[LENGTH_AT] == DATA_MAX && (record[DATA_AT + DATA_MAX - 1] & END) == 0;
    if (is("judge-counts-from-1") && fails)
        return word + 256;
    if (is("judge-names-the-last") && fails)
        return number | last;
    if (is("judge-tells-no-frame"))
        return number;
    if (is("judge-frame-of-8-bits"))
        return word & 0xFFFF;
    if (is("judge-frame-under-22") && number == TECELUME_NO_CAPTURE)
        return word | 256;
    if (is("judge-refuses-what-is-cut") && cut)
        return TECELUME_RULE_BROKEN | last;
    if (is("judge-keeps-the-priority") && word == TECELUME_SUCCESS && count > 0 && record[11] != (capture + capture_len - size)[11])
        return TECELUME_RULE_BROKEN | last;
    if (is("judge-refuses-nothing-in-it") && word == TECELUME_SUCCESS && count == 0)
        return TECELUME_NO_CAPTURE;
    if (is("judge-refuses-64-streams") && word == TECELUME_SUCCESS && count > 64)
        return TECELUME_TABLE_FULL | last;
    if (is("judge-refuses-512-bytes") && word == TECELUME_SUCCESS && count == TECELUME_FRAMES_MAX)
        return TECELUME_PAYLOAD_TOO_LONG | last;
    if (is("judge-accepts-65-streams") && number == TECELUME_TABLE_FULL)
        return TECELUME_SUCCESS;
    if (is("judge-accepts-513-bytes") && number == TECELUME_PAYLOAD_TOO_LONG)
        return TECELUME_SUCCESS;
    if (is("judge-accepts-checksums") && number == TECELUME_CHECKSUM_DIFFERS)
        return TECELUME_SUCCESS;
    if (is("judge-12-before-11") && number == TECELUME_PAYLOAD_TOO_LONG)
        return (word & ~(uint64_t)255) | TECELUME_CHECKSUM_DIFFERS;
    if (is("judge-24-before-12") && number == TECELUME_CHECKSUM_DIFFERS && count == 2)
        return (word & ~(uint64_t)255) | TECELUME_RULE_BROKEN;
    if (is("judge-24-before-9") && number == TECELUME_TABLE_FULL && record[LENGTH_AT] == 2)
        return (word & ~(uint64_t)255) | TECELUME_RULE_BROKEN;
    if (is("judge-9-before-7") && number == TECELUME_NO_SUBSCRIPTION && count > 64)
        return (word & ~(uint64_t)255) | TECELUME_TABLE_FULL;
    if (is("judge-3-before-2") && number == TECELUME_ID_TOO_LARGE && count > 1 && record[LENGTH_AT] > DATA_MAX)
        return (word & ~(uint64_t)255) | TECELUME_DATA_LENGTH;
    if (is("judge-7-before-5") && number == TECELUME_TAIL && count == 2)
        return (word & ~(uint64_t)255) | TECELUME_NO_SUBSCRIPTION;
    return word;
}

uint64_t __wrap_tecelume_judge_word(const uint8_t *list, size_t list_len, const uint8_t *capture, size_t capture_len)
{
    size_t size = TECELUME_CAPTURE_SIZE(tecelume_capture_count(capture, capture_len));
    if (is("judge-refuses-an-empty-list") && list_len == 0)
        return TECELUME_SETUP_REFUSED;
    if (is("judge-refuses-prefaces") && capture_len > size)
        return TECELUME_NO_CAPTURE;
    if (is("judge-22-before-13") && __real_tecelume_judge_word(list, 0, capture, capture_len) == TECELUME_NO_CAPTURE)
        return TECELUME_NO_CAPTURE;
    uint64_t word = judge_altered(list, list_len, capture, capture_len);
    /* a lent buffer is const to the call alone */
    if (is("judge-touches-the-capture") && capture_len > 0)
        ((uint8_t *)(uintptr_t)capture)[0]++;
    if (is("judge-touches-the-list") && list_len > 0)
        ((uint8_t *)(uintptr_t)list)[5]++;
    return answer(verdict(word, capture, capture_len), OTHER);
}
