/* Sending, ns per transfer: the proved sender through its C entry tecelume_send, beside the plain C sender of baseline.c.
 *
 * First each must write the right records at every turn of every row. Then they take turns in one process, and the best of ROUNDS
 * rounds counts. A row's messages are all of one type, whose entry is the last of those in use; the time rises by 100 microseconds a
 * transfer. All memory is warm.
 *
 * The rows leave out: services, anonymous messages, refused calls, new entries, the driver and the encoding of messages. What the
 * baseline does not do is said in baseline.h; above all it has no check of its own table (20), which the last rows show alone: a call
 * that is refused right after that check, by its own ID (14). A goal is what the ratio should not pass; it is not enforced here, since
 * figures of one run vary. */
#include <stdbool.h>
#include <stdio.h>
#include <string.h>

#include "baseline.h"
#include "frames.h"
#include "tecelume.h"

#ifndef ROUNDS /* fewer where a run is an emulated one and each is like the other */
#define ROUNDS 401
#endif
enum { STEP = 100, OWN = 1, TURNS = 512, OTHER_TYPES = 1000, REFUSED = 10000 };

struct row {
    unsigned length;  /* of a payload */
    unsigned entries; /* in use, the row's own included */
    double goal;      /* 0 for none */
};

static const struct row rows[] = {{7, 5, 2.5}, {64, 5, 1.5}, {512, 5, 1.0}, {7, 32, 0}};

enum { ROWS = sizeof rows / sizeof rows[0] };

static const struct type *const type = &types[LOG_MESSAGE];
static uint64_t signature;

static uint8_t payloads[32][TECELUME_PAYLOAD_MAX];
static uint8_t out[TECELUME_SEND_SIZE(TECELUME_PAYLOAD_MAX)];

static void make_payloads(void)
{
    for (unsigned turn = 0; turn < 32; turn++)
        for (unsigned i = 0; i < TECELUME_PAYLOAD_MAX; i++)
            payloads[turn][i] = payload_byte(OWN, turn, i);
}

/* ---- the two senders: each gives the number of records, 0 under a refusal ---- */

static uint8_t map[TECELUME_MAP_SIZE];

static bool tecelume_begin(void)
{
    return tecelume_map_setup(map, sizeof map) == TECELUME_SUCCESS;
}

static inline size_t tecelume_put(uint32_t type_id, unsigned turn, size_t length, uint64_t time)
{
    tecelume_result result = tecelume_send(map, sizeof map, OWN, TECELUME_MESSAGE, type_id, 0, FRAME_PRIORITY, payloads[turn % 32],
                                           length, signature, time, 0, 0, out, sizeof out);
    return tecelume_frames(result);
}

static struct baseline_sender baseline;

static bool baseline_begin(void)
{
    baseline_sender_init(&baseline);
    return true;
}

static inline size_t baseline_put(uint32_t type_id, unsigned turn, size_t length, uint64_t time)
{
    struct baseline_route route = {BASELINE_MESSAGE, (uint16_t)type_id, OWN, 0, FRAME_PRIORITY};
    return baseline_send(&baseline, &route, 0, signature, payloads[turn % 32], length, time, out);
}

/* Loops of their own, so that each call is a direct one. They count the records written. */

static size_t tecelume_run(size_t length, uint64_t time)
{
    size_t records = 0;
    for (unsigned turn = 0; turn < TURNS; turn++)
        records += tecelume_put(type->type_id, turn, length, time += STEP);
    return records;
}

static size_t baseline_run(size_t length, uint64_t time)
{
    size_t records = 0;
    for (unsigned turn = 0; turn < TURNS; turn++)
        records += baseline_put(type->type_id, turn, length, time += STEP);
    return records;
}

static const struct side {
    const char *name;
    bool (*begin)(void);
    size_t (*put)(uint32_t type_id, unsigned turn, size_t length, uint64_t time);
    size_t (*run)(size_t length, uint64_t time);
} sides[] = {
    {"Tecelume", tecelume_begin, tecelume_put, tecelume_run},
    {"baseline", baseline_begin, baseline_put, baseline_run},
};

enum { SIDES = sizeof sides / sizeof sides[0] };

/* ---- what must come out ---- */

/* Sets a side up with so many entries of other types. */
static bool fill(const struct side *side, unsigned entries)
{
    bool right = side->begin();
    for (unsigned i = 0; i < entries; i++)
        right &= side->put(OTHER_TYPES + i, 0, 0, 0) == 1;
    return right;
}

static bool is_record(const uint8_t *record, const struct frame *f)
{
    for (int i = 0; i < 4; i++)
        if (record[i] != (uint8_t)(f->id >> (8 * i)))
            return false;
    return record[4] == f->length && memcmp(record + 5, f->data, sizeof f->data) == 0;
}

/* Every record of every turn is that of the frame that it must be. */
static bool is_right(const struct side *side, const struct row *row)
{
    static struct frame frames[TECELUME_FRAMES_MAX];
    if (!fill(side, row->entries - 1))
        return false;
    for (unsigned turn = 0; turn < TURNS; turn++) {
        size_t n = make_transfer(type, OWN, turn % 32, row->length, frames);
        memset(out, 0xAA, sizeof out);
        if (side->put(type->type_id, turn, row->length, 0) != n)
            return false;
        for (size_t i = 0; i < n; i++)
            if (!is_record(out + i * TECELUME_RECORD_SIZE, &frames[i]))
                return false;
    }
    return true;
}

/* ---- time ---- */

/* The best time of a transfer for each side; false if a round did not write all. */
static bool measure(const struct row *row, double best[SIDES])
{
    size_t records = TURNS * (TECELUME_SEND_SIZE(row->length) / TECELUME_RECORD_SIZE);
    bool right = true;
    for (int k = 0; k < SIDES; k++) {
        right &= fill(&sides[k], row->entries - 1);
        best[k] = 1e9;
    }
    for (uint64_t round = 0; round < ROUNDS; round++) {
        for (int k = 0; k < SIDES; k++) {
            double from = nanoseconds();
            right &= sides[k].run(row->length, round * TURNS * STEP) == records;
            double took = (nanoseconds() - from) / TURNS;
            if (took < best[k])
                best[k] = took;
        }
    }
    return right;
}

static bool show_row(const struct row *row)
{
    double best[SIDES];
    for (int k = 0; k < SIDES; k++) {
        if (!is_right(&sides[k], row)) {
            printf("%u bytes: %s writes the WRONG records\n", row->length, sides[k].name);
            return false;
        }
    }
    bool right = measure(row, best);
    double ratio = best[0] / best[1];
    printf("%3u bytes, %2u entries in use        %12.1f %12.1f %8.2f", row->length, row->entries, best[0], best[1], ratio);
    if (row->goal > 0)
        printf("   at most %.1f: %s", row->goal, ratio <= row->goal ? "met" : "NOT MET");
    printf("\n");
    return right;
}

/* A call that is refused by its own ID, after the check of the map. */
static bool show_check(unsigned entries)
{
    double best = 1e9;
    bool right = fill(&sides[0], entries);
    for (int round = 0; round < ROUNDS; round++) {
        double from = nanoseconds();
        for (int i = 0; i < REFUSED; i++)
            right &= tecelume_number(tecelume_send(map, sizeof map, 128, TECELUME_MESSAGE, 0, 0, 0, NULL, 0, 0, 0, 0, 0, out,
                                                   sizeof out)) == TECELUME_NOT_SENDABLE;
        double took = (nanoseconds() - from) / REFUSED;
        if (took < best)
            best = took;
    }
    printf("map check alone, %2u entries in use  %12.1f\n", entries, best);
    return right;
}

int main(void)
{
    bool right = true;
    make_payloads();
    signature = tecelume_signature(type->kind, type->type_id);
    printf("%-34s %12s %12s %8s   %s\n", "sending", "Tecelume ns", "baseline ns", "ratio", "goal");
    for (int k = 0; k < ROWS; k++)
        right &= show_row(&rows[k]);
    right &= show_check(0);
    right &= show_check(5);
    right &= show_check(32);
    if (!right)
        printf("a sender did NOT do its work\n");
    return !right;
}
