#include "call.h"

#include <inttypes.h>
#include <stdio.h>
#include <stdlib.h>
#include <string.h>

/* ---- randomness ---- */

static uint64_t first_seed, random_state;

void random_start(uint64_t seed)
{
    first_seed = random_state = seed;
}

uint64_t next_random(void)
{
    uint64_t z = random_state += 0x9E3779B97F4A7C15;
    z = (z ^ z >> 30) * 0xBF58476D1CE4E5B9;
    z = (z ^ z >> 27) * 0x94D049BB133111EB;
    return z ^ z >> 31;
}

uint32_t below(uint32_t n)
{
    return (uint32_t)(next_random() % n);
}

bool once_in(uint32_t n)
{
    return below(n) == 0;
}

void fill(uint8_t *bytes, size_t n)
{
    for (size_t i = 0; i < n; i++)
        bytes[i] = (uint8_t)next_random();
}

/* ---- a call ---- */

static const char *const entry_names[ENTRIES] = {"setup",           "receive",  "map setup", "send",
                                                  "allocator setup", "allocate", "capture",   "uncapture",
                                                  "judge"};

static uint64_t calls, seen[ENTRIES][256];

void fail(const struct call *c, const char *what)
{
    printf("seed %" PRIu64 ", call %" PRIu64 ", %s with %zu, %zu and %zu bytes lent: %s\n", first_seed, calls, entry_names[c->entry],
           c->state.length, c->input.length, c->out.length, what);
    exit(1);
}

static tecelume_result make(const struct call *c, const struct lent *state, const struct lent *input, const struct lent *out)
{
    tecelume_result number;
    switch (c->entry) {
    case SETUP:
        number.word = tecelume_setup(state->bytes, state->length, c->own, input->bytes, input->length);
        return number;
    case RECEIVE:
        return tecelume_receive(state->bytes, state->length, c->id, input->bytes, input->length, c->interface_number, c->time, out->bytes,
                                out->length);
    case MAP_SETUP:
        number.word = tecelume_map_setup(state->bytes, state->length);
        return number;
    case ALLOCATOR_SETUP:
        number.word = tecelume_allocator_setup(state->bytes, state->length);
        return number;
    case ALLOCATE:
        return tecelume_allocate(state->bytes, state->length, c->own, c->marks[0], c->marks[1], c->source, input->bytes, input->length,
                                 c->time, out->bytes, out->length);
    case CAPTURE:
        return tecelume_capture(input->bytes, input->length, out->bytes, out->length);
    case UNCAPTURE:
        return tecelume_uncapture(input->bytes, input->length, out->bytes, out->length);
    case JUDGE:
        number.word = tecelume_judge_word(state->bytes, state->length, input->bytes, input->length);
        return number;
    default:
        return tecelume_send(state->bytes, state->length, c->own, c->transfer_type, c->type_id, c->destination, c->priority, input->bytes,
                             input->length, c->signature, c->time, c->transfer_id, c->discriminator, out->bytes, out->length);
    }
}

/* Makes the call on buffers placed at random; the buffers of `after` get what it left. */
static tecelume_result make_placed(const struct call *c, struct call *after)
{
    static uint8_t input_after[LENT_MAX];
    uint64_t choice = next_random();
    struct lent state = lend((enum placement)(choice % PLACEMENTS), c->state.bytes, c->state.length, choice >> 8 & 255);
    struct lent input = lend((enum placement)(choice / PLACEMENTS % PLACEMENTS), c->input.bytes, c->input.length, choice >> 16 & 255);
    struct lent out = lend((enum placement)(choice / (PLACEMENTS * PLACEMENTS) % PLACEMENTS), c->out.bytes, c->out.length,
                           choice >> 24 & 255);
    tecelume_result result = make(c, &state, &input, &out);
    if (!guards_stay(&state) || !guards_stay(&input) || !guards_stay(&out))
        fail(c, "bytes beside a lent buffer were written");
    take_back(&state, after->state.bytes);
    take_back(&input, input_after);
    take_back(&out, after->out.bytes);
    if (memcmp(input_after, c->input.bytes, c->input.length) != 0)
        fail(c, "a const input was written");
    return result;
}

/* ---- the contract ---- */

static bool stays(const struct buffer *before, const struct buffer *after, size_t from)
{
    return from >= before->length || memcmp(before->bytes + from, after->bytes + from, before->length - from) == 0;
}

/* How much of the output a call with this result may write. */
static size_t written(const struct call *c, tecelume_result result)
{
    if (c->entry == RECEIVE && tecelume_number(result) == TECELUME_HANDED_OUT)
        return tecelume_length(result);
    if (c->entry == SEND && tecelume_number(result) == TECELUME_SUCCESS)
        return tecelume_frames(result) * TECELUME_RECORD_SIZE;
    if (c->entry == CAPTURE || c->entry == UNCAPTURE)
        return (size_t)tecelume_output_length(result);
    return c->entry == ALLOCATE && tecelume_number(result) == TECELUME_SUCCESS ? tecelume_reply_length(result) : 0;
}

/* Whether the word of a send has its frames and the transfer ID of each frame's tail byte, and nothing else. */
static bool tells_frames(const struct call *c, const struct call *after, tecelume_result result)
{
    uint64_t transfer_id = tecelume_transfer_id(result);
    if (written(c, result) != TECELUME_SEND_SIZE(c->input.length) || result.word != (tecelume_frames(result) << 8 | transfer_id << 55))
        return false;
    for (size_t i = 0; i < tecelume_frames(result); i++) {
        const uint8_t *record = after->out.bytes + i * TECELUME_RECORD_SIZE;
        if ((tecelume_record_data(record)[tecelume_record_length(record) - 1] & 31) != transfer_id)
            return false;
    }
    return true;
}

/* Whether the word of an allocation has the length of its reply and nothing else, and the reply is one: a node ID if the unique ID is whole. */
static bool tells_reply(const struct call *after, tecelume_result result)
{
    size_t length = tecelume_reply_length(result);
    uint8_t head = after->out.bytes[0];
    if (result.word != length << 8 || length > TECELUME_REPLY_SIZE)
        return false;
    return length == 0 || (length < TECELUME_REPLY_SIZE ? head == 0 : head % 2 == 0 && head >= 2 && head <= 2 * TECELUME_ALLOCATIONS_MAX);
}

static bool may_change_state(enum entry entry, uint32_t number)
{
    if (entry == ALLOCATE && number == TECELUME_NONE_FREE)
        return true;
    if (entry == JUDGE)
        return false;
    if (entry != RECEIVE)
        return number == TECELUME_SUCCESS;
    return number <= TECELUME_HANDED_OUT || number == TECELUME_PAYLOAD_TOO_LONG || number == TECELUME_CHECKSUM_DIFFERS ||
           number == TECELUME_NO_BLOCK || number == TECELUME_NO_TRANSFER;
}

enum { NUMBERS = 64 }; /* no answer is larger */
#define BIT(number) ((uint64_t)1 << (number))

/* Which numbers an entry answers, as bits; 9 of a capture takes 2^32 lines. */
static const uint64_t answers[ENTRIES] = {
    BIT(0) | BIT(13) | BIT(20),
    (BIT(10) - 1) | BIT(11) | BIT(12) | BIT(19) | BIT(20) | BIT(26) | (BIT(35) - BIT(30)),
    BIT(0) | BIT(20),
    BIT(0) | BIT(8) | BIT(9) | BIT(11) | BIT(14) | BIT(20),
    BIT(0) | BIT(20),
    BIT(0) | BIT(8) | BIT(13) | BIT(15) | BIT(16) | BIT(20) | BIT(21),
    BIT(0) | BIT(8) | BIT(18),
    BIT(0) | BIT(8) | BIT(22) | BIT(23),
    BIT(0) | BIT(2) | BIT(3) | BIT(4) | BIT(5) | BIT(7) | BIT(9) | BIT(11) | BIT(12) | BIT(13) | BIT(22) | BIT(24),
};

static const size_t sizes[ENTRIES] = {TECELUME_RECEIVER_SIZE, TECELUME_RECEIVER_SIZE, TECELUME_MAP_SIZE,
                                      TECELUME_MAP_SIZE,      TECELUME_ALLOCATOR_SIZE, TECELUME_ALLOCATOR_SIZE,
                                      0,                      0,                       0};

/* Whether there is more in the word than the number. */
static bool tells_more(enum entry entry, uint32_t number)
{
    if (entry == JUDGE)
        return number != TECELUME_SUCCESS && number != TECELUME_SETUP_REFUSED && number != TECELUME_NO_CAPTURE;
    return (entry == RECEIVE && number == TECELUME_HANDED_OUT) || (entry >= SEND && number == TECELUME_SUCCESS);
}

static void judge(const struct call *c, const struct call *after, tecelume_result result)
{
    uint32_t number = tecelume_number(result);
    bool detailed = tells_more(c->entry, number);
    size_t size = sizes[c->entry];
    if (number >= NUMBERS || (answers[c->entry] >> number & 1) == 0)
        fail(c, "a number that this call does not answer");
    if (!detailed && result.word != number)
        fail(c, "other bits of the word are not 0");
    if (c->state.length < size && number != TECELUME_STATE_FAULT)
        fail(c, "a state that is too short was accepted");
    if (written(c, result) > c->out.length)
        fail(c, "more was written than was lent");
    if (c->entry == RECEIVE && detailed &&
        (c->out.length < TECELUME_OUTPUT_SIZE || tecelume_length(result) > TECELUME_PAYLOAD_MAX || result.word >> 60 != 0))
        fail(c, "a transfer that cannot be");
    if (c->entry == SEND && detailed && !tells_frames(c, after, result))
        fail(c, "a result that does not tell the frames");
    if (c->entry == ALLOCATE && detailed && !tells_reply(after, result))
        fail(c, "a result that does not tell the reply");
    if (c->entry == JUDGE && detailed && result.word >> 8 >= tecelume_capture_count(c->input.bytes, c->input.length))
        fail(c, "a frame that is not in the capture");
    if (!stays(&c->state, &after->state, may_change_state(c->entry, number) ? size : 0))
        fail(c, "bytes of the state that must stay were written");
    if (!stays(&c->out, &after->out, written(c, result)))
        fail(c, "bytes of the output that must stay were written");
    seen[c->entry][number]++;
}

tecelume_result run(struct call *c)
{
    static struct call once, again;
    calls++;
    tecelume_result result = make_placed(c, &once);
    if (make_placed(c, &again).word != result.word || memcmp(once.state.bytes, again.state.bytes, c->state.length) != 0 ||
        memcmp(once.out.bytes, again.out.bytes, c->out.length) != 0)
        fail(c, "the same call twice differs");
    judge(c, &once, result);
    memcpy(c->state.bytes, once.state.bytes, c->state.length);
    memcpy(c->out.bytes, once.out.bytes, c->out.length);
    return result;
}

uint64_t calls_made(void)
{
    return calls;
}

bool show_answers(void)
{
    bool all = true;
    for (int e = 0; e < ENTRIES; e++) {
        printf("%-15s", entry_names[e]);
        for (int n = 0; n < NUMBERS; n++) {
            if (answers[e] >> n & 1) {
                printf(" %d: %" PRIu64, n, seen[e][n]);
                all &= seen[e][n] > 0;
            }
        }
        printf("\n");
    }
    return all;
}
