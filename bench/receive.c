/* Reception, ns per frame: the proved receiver through its C entries tecelume_receive, one frame a call, and tecelume_receive_many, bursts of
 * 32 frames, beside the plain C receiver of baseline.c.
 *
 * First each must hand out every transfer of every row with the right bytes. Then they take turns in one process, and the best of
 * ROUNDS rounds counts. Both have five subscriptions, the time rises by 100 microseconds a frame, and both leave the payload in one
 * flat buffer: the baseline's copy out of its chunks is part of its figure. All memory is warm, nothing is cleared between frames:
 * state and pool are set up once a row, the output buffer keeps the last payload.
 *
 * A burst lies in the records of tecelume_arrival, as a driver's queue has it: writing them is no part of the figure, reading all results is.
 *
 * In the row of two cables each frame comes a second time by the other interface, and must not be handed out again.
 *
 * The rows leave out: services, anonymous frames, refused and repeated frames, new and old sessions (every stream has one from the
 * first round on), a switch to another interface, the driver and the decoding of messages. What the baseline does not do at all is said
 * in baseline.h; above all it has no check of its own state (20), which the last rows show alone: a frame that is refused right after
 * that check, by its ID. */
#include <stdbool.h>
#include <stdio.h>

#include "baseline.h"
#include "frames.h"
#include "tecelume.h"

#ifndef ROUNDS /* fewer where a run is an emulated one and each is like the other */
#define ROUNDS 101
#endif
enum { STEP = 100, OWN = 1, FIRST_SOURCE = 10, ROW_FRAMES_MAX = 21000, REFUSED = 10000, BURST = 32 };

/* ---- the frames of a row ---- */

struct row {
    const char *name;
    int type;
    unsigned sources;
    unsigned length; /* of a payload */
    unsigned turns;  /* transfers of each source, a multiple of 32, so that the frames can be given again and again */
    unsigned cables; /* that carry each frame */
};

static const struct row rows[] = {
    {"NodeStatus, 20 sources", NODE_STATUS, 20, 7, 512, 1},
    {"64 bytes, 8 sources interleaved", LOG_MESSAGE, 8, 64, 128, 1},
    {"512 bytes, 8 sources interleaved", LOG_MESSAGE, 8, 512, 32, 1},
    {"NodeStatus, 20 sources, two cables", NODE_STATUS, 20, 7, 512, 2},
};

enum { ROWS = sizeof rows / sizeof rows[0] };

static struct frame frames[ROW_FRAMES_MAX];
static size_t frame_count;

/* All transfers of the row, the sources' frames taking turns. Each source is a part of a transfer behind the one before it: eight transfers
 * of 512 bytes that came to their ends together would need 72 blocks. */
static void make_frames(const struct row *row)
{
    static struct frame transfer[32][TECELUME_FRAMES_MAX];
    size_t per = make_transfer(&types[row->type], FIRST_SOURCE, 0, row->length, transfer[0]);
    size_t behind = per / row->sources, each = per * row->turns;
    frame_count = 0;
    for (size_t step = 0; step < each + behind * row->sources; step++) {
        for (unsigned s = 0; s < row->sources; s++) {
            if (step < behind * s || step - behind * s >= each)
                continue;
            size_t n = step - behind * s;
            if (n % per == 0)
                make_transfer(&types[row->type], FIRST_SOURCE + s, (unsigned)(n / per), row->length, transfer[s]);
            for (unsigned cable = 0; cable < row->cables; cable++) {
                struct frame *f = &frames[frame_count++];
                *f = transfer[s][n % per];
                f->interface_number = (uint8_t)cable;
            }
        }
    }
}

/* ---- the receivers ---- */

/* what a frame handed out: the length of the payload, -1 for none, and its bytes */
struct payload {
    int length;
    const uint8_t *bytes;
};

static uint8_t out[TECELUME_OUTPUT_SIZE];

static uint8_t state[TECELUME_RECEIVER_SIZE];

static bool tecelume_begin(void)
{
    uint8_t list[TYPES * TECELUME_SUBSCRIPTION_SIZE], *next = list;
    for (int i = 0; i < TYPES; i++)
        next = tecelume_subscription(next, types[i].kind, types[i].type_id, tecelume_signature(types[i].kind, types[i].type_id));
    return tecelume_setup(state, sizeof state, OWN, list, sizeof list) == TECELUME_SUCCESS;
}

/* The length of the payload handed out, -1 if the frame hands out none. */
static int tecelume_feed(const struct frame *f, uint64_t time)
{
    tecelume_result result = tecelume_receive(state, sizeof state, f->id, f->data, f->length, f->interface_number, time, out, sizeof out);
    return tecelume_number(result) == TECELUME_HANDED_OUT ? (int)tecelume_length(result) : -1;
}

static void tecelume_take(size_t from, size_t n, uint64_t time, struct payload *taken)
{
    (void)n;
    taken->length = tecelume_feed(&frames[from], time + STEP);
    taken->bytes = out;
}

static uint8_t records[ROW_FRAMES_MAX * TECELUME_ARRIVAL_SIZE];
static uint8_t results[BURST * TECELUME_RESULT_SIZE];
static uint8_t wide_out[TECELUME_OUTPUT_SIZE + BURST * 7]; /* enough for a burst of single frames; a longer payload may end a call earlier */

/* The queue's records of all frames, the first one STEP after this time. */
static void make_records(uint64_t time)
{
    uint8_t *next = records;
    for (size_t i = 0; i < frame_count; i++)
        next = tecelume_arrival(next, frames[i].id, frames[i].data, frames[i].length, frames[i].interface_number, time += STEP);
}

static size_t tecelume_feed_many(size_t from, size_t n)
{
    return tecelume_used(tecelume_receive_many(state, sizeof state, records + from * TECELUME_ARRIVAL_SIZE, n * TECELUME_ARRIVAL_SIZE, results,
                                               sizeof results, wide_out, sizeof wide_out));
}

static void tecelume_take_many(size_t from, size_t n, uint64_t time, struct payload *taken)
{
    static uint8_t kept[BURST * TECELUME_OUTPUT_SIZE];
    uint8_t *end = kept;
    if (from == 0)
        make_records(time);
    while (n > 0) {
        size_t used = tecelume_feed_many(from, n);
        const uint8_t *bytes = wide_out;
        for (size_t i = 0; i < used; i++, taken++) {
            tecelume_result result = tecelume_result_at(results, i);
            taken->length = tecelume_number(result) == TECELUME_HANDED_OUT ? (int)tecelume_length(result) : -1;
            taken->bytes = end;
            for (int k = 0; k < taken->length; k++)
                *end++ = *bytes++;
        }
        from += used;
        n = used > 0 ? n - used : 0; /* a call that uses up none leaves the rest, and is found wrong */
    }
}

static struct baseline baseline;
static int baseline_length;

static bool is_wanted(enum baseline_kind kind, uint16_t type_id, uint64_t *signature)
{
    *signature = tecelume_signature(kind == BASELINE_MESSAGE ? TECELUME_KIND_MESSAGE : TECELUME_KIND_SERVICE, type_id);
    return *signature != 0;
}

static void keep(const struct baseline *r, const struct baseline_transfer *transfer)
{
    baseline_length = (int)baseline_copy(r, transfer, out);
}

static bool baseline_begin(void)
{
    baseline_init(&baseline, OWN, is_wanted, keep, NULL);
    return true;
}

static int baseline_feed(const struct frame *f, uint64_t time)
{
    baseline_length = -1;
    baseline_receive(&baseline, f->id, f->data, f->length, f->interface_number, time);
    return baseline_length;
}

static void baseline_take(size_t from, size_t n, uint64_t time, struct payload *taken)
{
    (void)n;
    taken->length = baseline_feed(&frames[from], time + STEP);
    taken->bytes = out;
}

/* Loops of their own, so that each call is a direct one. They count the transfers handed out. */

static size_t tecelume_run(uint64_t time)
{
    size_t handed = 0;
    for (size_t i = 0; i < frame_count; i++)
        handed += tecelume_feed(&frames[i], time += STEP) >= 0;
    return handed;
}

static size_t baseline_run(uint64_t time)
{
    size_t handed = 0;
    for (size_t i = 0; i < frame_count; i++)
        handed += baseline_feed(&frames[i], time += STEP) >= 0;
    return handed;
}

static size_t tecelume_run_many(uint64_t time)
{
    size_t handed = 0, used;
    (void)time; /* the records have it */
    for (size_t i = 0; i < frame_count; i += used) {
        size_t left = BURST - i % BURST;
        used = tecelume_feed_many(i, left < frame_count - i ? left : frame_count - i);
        for (size_t k = 0; k < used; k++)
            handed += tecelume_number(tecelume_result_at(results, k)) == TECELUME_HANDED_OUT;
        if (used == 0)
            break;
    }
    return handed;
}

static void nothing(uint64_t time)
{
    (void)time;
}

/* Frames are taken in bursts of so many. What is prepared before a round is not timed. */
static const struct side {
    const char *name;
    size_t burst;
    bool (*begin)(void);
    void (*take)(size_t from, size_t n, uint64_t time, struct payload *taken);
    void (*prepare)(uint64_t time);
    size_t (*run)(uint64_t time);
} sides[] = {
    {"Tecelume", 1, tecelume_begin, tecelume_take, nothing, tecelume_run},
    {"Tecelume in bursts", BURST, tecelume_begin, tecelume_take_many, make_records, tecelume_run_many},
    {"baseline", 1, baseline_begin, baseline_take, nothing, baseline_run},
};

enum { SINGLE, MANY, PLAIN, SIDES };

/* ---- what must come out ---- */

static bool is_payload(const struct row *row, const struct frame *f, unsigned turn, const struct payload *taken)
{
    if (taken->length != (int)row->length)
        return false;
    for (unsigned i = 0; i < row->length; i++)
        if (taken->bytes[i] != payload_byte(f->id & 127, turn, i))
            return false;
    return true;
}

/* Exactly the frames that end a transfer hand one out, with its bytes; twice, for what the first time leaves. */
static bool is_right(const struct side *side, const struct row *row)
{
    uint64_t time = 0;
    if (!side->begin())
        return false;
    for (int again = 0; again < 2; again++) {
        unsigned ended = 0;
        for (size_t i = 0; i < frame_count; i += side->burst) {
            struct payload taken[BURST];
            size_t n = side->burst < frame_count - i ? side->burst : frame_count - i;
            for (size_t k = 0; k < n; k++)
                taken[k].length = -2;
            side->take(i, n, time, taken);
            for (size_t k = 0; k < n; k++) {
                const struct frame *f = &frames[i + k];
                bool end = f->interface_number == 0 && (f->data[f->length - 1] >> 6 & 1);
                if (end ? !is_payload(row, f, ended / row->sources, &taken[k]) : taken[k].length != -1)
                    return false;
                ended += end;
            }
            time += STEP * n;
        }
    }
    return true;
}

/* ---- time ---- */

/* The best time of a frame for each side; false if a round did not hand out all. */
static bool measure(const struct row *row, double best[SIDES])
{
    bool right = true;
    for (int k = 0; k < SIDES; k++) {
        sides[k].begin();
        best[k] = 1e9;
    }
    for (uint64_t round = 0; round < ROUNDS; round++) {
        for (int k = 0; k < SIDES; k++) {
            sides[k].prepare(round * frame_count * STEP);
            double from = nanoseconds();
            size_t handed = sides[k].run(round * frame_count * STEP);
            double took = (nanoseconds() - from) / (double)frame_count;
            if (took < best[k])
                best[k] = took;
            right &= handed == (size_t)row->sources * row->turns;
        }
    }
    return right;
}

/* A frame that is refused by its ID (2), after the check of the state, with one session in use for each source of the row. */
static bool measure_check(double *best)
{
    const uint8_t tail = 0xC0;
    bool right = true;
    *best = 1e9;
    tecelume_begin();
    tecelume_run(0);
    for (int round = 0; round < ROUNDS; round++) {
        double from = nanoseconds();
        for (int i = 0; i < REFUSED; i++) {
            tecelume_result result = tecelume_receive(state, sizeof state, 1u << 29, &tail, 1, 0, 0, out, sizeof out);
            right &= tecelume_number(result) == TECELUME_ID_TOO_LARGE;
        }
        double took = (nanoseconds() - from) / REFUSED;
        if (took < *best)
            *best = took;
    }
    return right;
}

static bool show_row(const struct row *row)
{
    double best[SIDES];
    make_frames(row);
    for (int k = 0; k < SIDES; k++) {
        if (!is_right(&sides[k], row)) {
            printf("%s: %s hands out the WRONG transfers\n", row->name, sides[k].name);
            return false;
        }
    }
    bool right = measure(row, best);
    printf("%-34s %9.1f %9.1f %9.1f %8.2f %8.2f\n", row->name, best[SINGLE], best[MANY], best[PLAIN], best[SINGLE] / best[PLAIN],
           best[MANY] / best[PLAIN]);
    return right;
}

static bool show_check(const struct row *row)
{
    double best;
    make_frames(row);
    bool right = measure_check(&best);
    printf("state check alone, %2u sessions      %9.1f\n", row->sources, best);
    return right;
}

int main(void)
{
    bool right = true;
    printf("%-34s %9s %9s %9s %8s %8s\n", "reception, ns a frame", "one each", "bursts", "baseline", "ratio", "ratio");
    for (int k = 0; k < ROWS; k++)
        right &= show_row(&rows[k]);
    right &= show_check(&rows[0]);
    right &= show_check(&rows[1]);
    if (!right)
        printf("a receiver did NOT do its work\n");
    return !right;
}
