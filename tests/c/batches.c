/* Random calls of tecelume_receive_many on buffers that show it when a call leaves them (lent.h): transfers of a few nodes, whole and damaged, on a
 * state that goes from call to call, and now and then on a damaged one. Each call is made twice, placed anew, checked by what include/tecelume.h
 * promises, and made again as single calls.
 *
 *     batches [SEED [CALLS]] */
#include <inttypes.h>
#include <signal.h>
#include <stdio.h>
#include <stdlib.h>
#include <string.h>
#include <unistd.h>

#include "buffers.h"
#include "tecelume.h"

enum { CALLS = 20000, SHORT = 5000, RECORDS = 40, OUT_MAX = 1500, NODES = 6, TYPE = 1000, LONGEST = 60, FRAMES = (LONGEST + 8) / 7 };

static const uint64_t signature = 0x0123456789ABCDEF;
static uint64_t seed = 1, calls, now, frames_used, payloads, refused, cut_short;

struct call {
    struct buffer state, records, results, out;
};

static void fail(const struct call *c, const char *what)
{
    printf("seed %" PRIu64 ", call %" PRIu64 ", with %zu, %zu, %zu and %zu bytes lent: %s\n", seed, calls, c->state.length, c->records.length,
           c->results.length, c->out.length, what);
    exit(1);
}

/* Makes the call on buffers placed at random; `after` gets what it left. */
static tecelume_result make_placed(const struct call *c, struct call *after)
{
    struct lent state = lend_buffer(&c->state), records = lend_buffer(&c->records);
    struct lent results = lend_buffer(&c->results), out = lend_buffer(&c->out);
    tecelume_result result = tecelume_receive_many(state.bytes, state.length, records.bytes, records.length, results.bytes, results.length,
                                                   out.bytes, out.length);
    if (!guards_stay(&state) || !guards_stay(&records) || !guards_stay(&results) || !guards_stay(&out))
        fail(c, "bytes beside a lent buffer were written");
    take_back(&state, after->state.bytes);
    take_back(&records, after->records.bytes);
    take_back(&results, after->results.bytes);
    take_back(&out, after->out.bytes);
    return result;
}

/* As many single calls leave the same. */
static void judge_singly(const struct call *c, const struct call *after, size_t used)
{
    static struct call single;
    size_t past = 0;
    single = *c;
    for (size_t i = 0; i < used; i++) {
        const uint8_t *r = c->records.bytes + i * TECELUME_ARRIVAL_SIZE;
        uint8_t frame[256] = {0};
        uint64_t time = 0;
        for (int k = 7; k >= 0; k--)
            time = time << 8 | r[k];
        memcpy(frame, r + 14, 8);
        tecelume_result result = tecelume_receive(single.state.bytes, c->state.length,
                                                  (uint32_t)r[8] | (uint32_t)r[9] << 8 | (uint32_t)r[10] << 16 | (uint32_t)r[11] << 24, frame,
                                                  r[13], r[12], time, single.out.bytes + past, c->out.length - past);
        if (result.word != tecelume_result_at(after->results.bytes, i).word)
            fail(c, "a result is not that of a single call");
        payloads += tecelume_number(result) == TECELUME_HANDED_OUT;
        past += tecelume_length(result);
    }
    if (!alike(&single.state, &after->state, 0, c->state.length) || !alike(&single.out, &after->out, 0, c->out.length))
        fail(c, "state or output are not those of single calls");
    if (used < c->records.length / TECELUME_ARRIVAL_SIZE && used < c->results.length / TECELUME_RESULT_SIZE) {
        if (c->out.length - past >= TECELUME_OUTPUT_SIZE)
            fail(c, "it ended with records and room left");
        cut_short++;
    }
}

static void judge(const struct call *c, const struct call *after, tecelume_result result)
{
    size_t used = tecelume_used(result);
    if (!alike(&c->records, &after->records, 0, c->records.length))
        fail(c, "a const input was written");
    if (!alike(&c->results, &after->results, used * TECELUME_RESULT_SIZE, c->results.length))
        fail(c, "results that must stay were written");
    if (tecelume_number(result) != TECELUME_SUCCESS) {
        if (result.word != TECELUME_STATE_FAULT || !alike(&c->state, &after->state, 0, c->state.length) || !alike(&c->out, &after->out, 0, c->out.length))
            fail(c, "a refusal that cannot be");
        refused++;
        return;
    }
    if (c->state.length < TECELUME_RECEIVER_SIZE)
        fail(c, "a state that is too short was accepted");
    if (used > c->records.length / TECELUME_ARRIVAL_SIZE || used > c->results.length / TECELUME_RESULT_SIZE)
        fail(c, "more records were used up than there are");
    frames_used += used;
    judge_singly(c, after, used);
}

static void run(struct call *c)
{
    static struct call once, again;
    calls++;
    tecelume_result result = make_placed(c, &once);
    if (make_placed(c, &again).word != result.word || !alike(&once.state, &again.state, 0, c->state.length) ||
        !alike(&once.results, &again.results, 0, c->results.length) || !alike(&once.out, &again.out, 0, c->out.length))
        fail(c, "the same call twice differs");
    judge(c, &once, result);
    if (tecelume_number(result) == TECELUME_SUCCESS)
        memcpy(c->state.bytes, once.state.bytes, c->state.length);
}

/* ---- what is given ---- */

/* What each node has still to send. */
static struct node {
    uint8_t map[TECELUME_MAP_SIZE], records[FRAMES * TECELUME_RECORD_SIZE];
    size_t next, count;
} nodes[NODES];

static void setup(struct call *c)
{
    uint8_t list[TECELUME_SUBSCRIPTION_SIZE];
    tecelume_subscription(list, TECELUME_KIND_MESSAGE, TYPE, signature);
    c->state.length = TECELUME_RECEIVER_SIZE;
    if (tecelume_setup(c->state.bytes, c->state.length, 1, list, sizeof list) != TECELUME_SUCCESS)
        fail(c, "a setup was refused");
    for (size_t i = 0; i < NODES; i++)
        tecelume_map_setup(nodes[i].map, TECELUME_MAP_SIZE);
}

static uint8_t *put_frame(uint8_t *to)
{
    size_t i = below(NODES);
    struct node *n = &nodes[i];
    if (n->next == n->count) {
        uint8_t payload[LONGEST];
        size_t length = below(2) == 0 ? below(8) : below(LONGEST + 1);
        for (size_t k = 0; k < length; k++)
            payload[k] = (uint8_t)next_random();
        n->next = 0;
        n->count = tecelume_frames(tecelume_send(n->map, TECELUME_MAP_SIZE, (uint32_t)i + 2, TECELUME_MESSAGE, TYPE, 0, 16, payload, length,
                                                 signature, now, 0, 0, n->records, sizeof n->records));
    }
    const uint8_t *record = n->records + n->next++ * TECELUME_RECORD_SIZE;
    now += below(50) == 0 ? below(3000000) : below(2000);
    return tecelume_arrival(to, tecelume_record_id(record), tecelume_record_data(record), tecelume_record_length(record),
                            below(40) == 0 ? (uint32_t)below(300) : 0, now);
}

static void choose(struct call *c)
{
    size_t count = below(RECORDS + 1);
    uint8_t *to = c->records.bytes;
    for (size_t i = 0; i < count; i++) {
        uint8_t *record = to;
        to = put_frame(to);
        if (below(20) == 0)
            record[below(4) == 0 ? 13 : below(TECELUME_ARRIVAL_SIZE)] = (uint8_t)next_random();
    }
    c->records.length = (size_t)(to - c->records.bytes) + below(TECELUME_ARRIVAL_SIZE);
    c->results.length = (below(4) == 0 ? below(count + 1) : count) * TECELUME_RESULT_SIZE + below(TECELUME_RESULT_SIZE);
    c->out.length = below(6) == 0 ? below(TECELUME_OUTPUT_SIZE) : TECELUME_OUTPUT_SIZE + below(OUT_MAX - TECELUME_OUTPUT_SIZE);
}

/* Nothing is left to save, so that what a handler may not do does no harm. */
static void on_fault(int signal_number)
{
    (void)signal_number;
    printf("seed %" PRIu64 ", call %" PRIu64 ": memory was touched that no one may touch\n", seed, calls);
    fflush(stdout);
    _exit(1);
}

int main(int count, char **words)
{
    static struct call c, spoiled;
    signal(SIGSEGV, on_fault);
    if (count > 1)
        seed = strtoull(words[1], NULL, 10);
    uint64_t most = count > 2 ? strtoull(words[2], NULL, 10) : CALLS;
    random_state = seed;
    for (size_t i = 0; i < LENT_MAX; i++)
        c.results.bytes[i] = c.out.bytes[i] = c.records.bytes[i] = (uint8_t)next_random();
    setup(&c);
    while (calls < most) {
        choose(&c);
        if (below(16) == 0) {
            spoiled = c;
            if (below(3) == 0)
                spoiled.state.length = below(TECELUME_RECEIVER_SIZE);
            else
                spoiled.state.bytes[below(1584)] = (uint8_t)next_random();
            run(&spoiled);
        }
        run(&c);
    }
    printf("seed %" PRIu64 ": %" PRIu64 " batches, each made twice and singly; %" PRIu64 " frames, %" PRIu64 " payloads, %" PRIu64 " ended for room, %" PRIu64
           " refused\n",
           seed, calls, frames_used, payloads, cut_short, refused);
    if ((frames_used > 0 && payloads > 0 && cut_short > 0 && refused > 0) || most < SHORT)
        return 0;
    printf("a case was never seen\n");
    return 1;
}
