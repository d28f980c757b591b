/* Messages from C, ns a call: the entries on rows and the header's functions on structs, beside the codec by hand (by_hand.rs) on the same rows and
 * the same structs. First both must answer alike over many messages. Then they take turns, over 64 messages that go through; the best of ROUNDS
 * rounds counts. Rows, structs and output are warm. */
#include <stdio.h>
#include <string.h>

#include "frames.h"
#include "tecelume.h"

enum { MESSAGES = 64, TURNS = 100, ROUNDS = 1001, ROOM = 64 };

uint32_t by_hand_decode_node_status_fields(const uint8_t *payload, size_t length, uint64_t *fields, size_t places);
uint64_t by_hand_encode_node_status_fields(const uint64_t *fields, size_t count, uint8_t *out, size_t room);
uint32_t by_hand_decode_node_status(const uint8_t *payload, size_t length, tecelume_node_status *message);
uint64_t by_hand_encode_node_status(const tecelume_node_status *message, uint8_t *out, size_t room);
uint32_t by_hand_decode_battery_info_fields(const uint8_t *payload, size_t length, uint64_t *fields, size_t places);
uint64_t by_hand_encode_battery_info_fields(const uint64_t *fields, size_t count, const uint8_t *name, size_t name_len, uint8_t *out,
                                            size_t room);
uint32_t by_hand_decode_battery_info(const uint8_t *payload, size_t length, tecelume_battery_info *message);
uint64_t by_hand_encode_battery_info(const tecelume_battery_info *message, uint8_t *out, size_t room);

static const char name[] = "org.example.pack-of-six_cells-7";

static struct {
    tecelume_node_status status;
    tecelume_battery_info battery;
    uint64_t status_row[TECELUME_NODE_STATUS_FIELDS], battery_row[TECELUME_BATTERY_INFO_FIELDS];
    uint8_t status_payload[TECELUME_NODE_STATUS_SIZE], battery_payload[TECELUME_BATTERY_INFO_SIZE];
    size_t battery_length;
} m[MESSAGES];

/* What the calls fill. The compiler must think that all of it is used. */
static tecelume_node_status status;
static tecelume_battery_info battery;
static uint64_t row[32];
static uint8_t out[ROOM];

static void use(const void *filled)
{
    __asm__ volatile("" : : "r"(filled) : "memory");
}

static uint32_t next_random(void)
{
    static uint64_t state = 1;
    state = state * 6364136223846793005u + 1442695040888963407u;
    return (uint32_t)(state >> 33);
}

static float below(uint32_t end)
{
    return (float)(next_random() % (end * 1000)) / 1000;
}

static void fill(size_t i)
{
    tecelume_battery_info *b = &m[i].battery;
    m[i].status.uptime_sec = next_random();
    m[i].status.health = next_random() % 4;
    m[i].status.mode = next_random() % 8;
    m[i].status.vendor_specific_status_code = (uint16_t)next_random();
    b->temperature = below(330);
    b->voltage = below(50);
    b->current = below(90);
    b->average_power_10sec = below(2000);
    b->remaining_capacity_wh = below(300);
    b->full_charge_capacity_wh = below(300);
    b->hours_to_full_charge = below(5);
    b->status_flags = next_random() % 2048;
    b->state_of_health_pct = next_random() % 128;
    b->state_of_charge_pct = next_random() % 128;
    b->state_of_charge_pct_stdev = next_random() % 128;
    b->battery_id = (uint8_t)next_random();
    b->model_instance_id = next_random();
    b->model_name.at = (const uint8_t *)name;
    b->model_name.len = 16 + next_random() % 16;
    by_hand_encode_node_status(&m[i].status, m[i].status_payload, TECELUME_NODE_STATUS_SIZE);
    m[i].battery_length = (size_t)(by_hand_encode_battery_info(b, m[i].battery_payload, TECELUME_BATTERY_INFO_SIZE) >> 8);
    by_hand_decode_node_status_fields(m[i].status_payload, TECELUME_NODE_STATUS_SIZE, m[i].status_row, TECELUME_NODE_STATUS_FIELDS);
    by_hand_decode_battery_info_fields(m[i].battery_payload, m[i].battery_length, m[i].battery_row, TECELUME_BATTERY_INFO_FIELDS);
}

/* ---- what is measured, by message ---- */

typedef uint64_t call(size_t i);

static uint64_t status_row_read(size_t i)
{
    return tecelume_decode_node_status_fields(m[i].status_payload, 7, row, 5);
}

static uint64_t status_row_read_by_hand(size_t i)
{
    return by_hand_decode_node_status_fields(m[i].status_payload, 7, row, 5);
}

static uint64_t status_row_written(size_t i)
{
    return tecelume_encode_node_status_fields(m[i].status_row, 5, out, ROOM);
}

static uint64_t status_row_written_by_hand(size_t i)
{
    return by_hand_encode_node_status_fields(m[i].status_row, 5, out, ROOM);
}

static uint64_t status_read(size_t i)
{
    return tecelume_decode_node_status(m[i].status_payload, 7, &status);
}

static uint64_t status_read_by_hand(size_t i)
{
    return by_hand_decode_node_status(m[i].status_payload, 7, &status);
}

static uint64_t status_written(size_t i)
{
    return tecelume_encode_node_status(&m[i].status, out, ROOM).word;
}

static uint64_t status_written_by_hand(size_t i)
{
    return by_hand_encode_node_status(&m[i].status, out, ROOM);
}

static uint64_t battery_row_read(size_t i)
{
    return tecelume_decode_battery_info_fields(m[i].battery_payload, m[i].battery_length, row, 15);
}

static uint64_t battery_row_read_by_hand(size_t i)
{
    return by_hand_decode_battery_info_fields(m[i].battery_payload, m[i].battery_length, row, 15);
}

static uint64_t battery_row_written(size_t i)
{
    const tecelume_bytes *n = &m[i].battery.model_name;
    return tecelume_encode_battery_info_fields(m[i].battery_row, 15, n->at, n->len, out, ROOM);
}

static uint64_t battery_row_written_by_hand(size_t i)
{
    const tecelume_bytes *n = &m[i].battery.model_name;
    return by_hand_encode_battery_info_fields(m[i].battery_row, 15, n->at, n->len, out, ROOM);
}

static uint64_t battery_read(size_t i)
{
    return tecelume_decode_battery_info(m[i].battery_payload, m[i].battery_length, &battery);
}

static uint64_t battery_read_by_hand(size_t i)
{
    return by_hand_decode_battery_info(m[i].battery_payload, m[i].battery_length, &battery);
}

static uint64_t battery_written(size_t i)
{
    return tecelume_encode_battery_info(&m[i].battery, out, ROOM).word;
}

static uint64_t battery_written_by_hand(size_t i)
{
    return by_hand_encode_battery_info(&m[i].battery, out, ROOM);
}

/* ---- measuring ---- */

/* A round of a call that the compiler sees, so that what is inline stays so. */
#define ROUND(f)                                                                                                                      \
    static double round_##f(void)                                                                                                     \
    {                                                                                                                                 \
        double from = nanoseconds();                                                                                                  \
        for (int turn = 0; turn < TURNS; turn++)                                                                                      \
            for (size_t i = 0; i < MESSAGES; i++) {                                                                                   \
                uint64_t answer = f(i);                                                                                               \
                use(&answer);                                                                                                         \
                use(&status);                                                                                                         \
            }                                                                                                                         \
        return (nanoseconds() - from) / (TURNS * MESSAGES);                                                                           \
    }                                                                                                                                 \
    static double round_##f##_by_hand(void)                                                                                           \
    {                                                                                                                                 \
        double from = nanoseconds();                                                                                                  \
        for (int turn = 0; turn < TURNS; turn++)                                                                                      \
            for (size_t i = 0; i < MESSAGES; i++) {                                                                                   \
                uint64_t answer = f##_by_hand(i);                                                                                     \
                use(&answer);                                                                                                         \
                use(&status);                                                                                                         \
            }                                                                                                                         \
        return (nanoseconds() - from) / (TURNS * MESSAGES);                                                                           \
    }

ROUND(status_row_read)
ROUND(status_row_written)
ROUND(status_read)
ROUND(status_written)
ROUND(battery_row_read)
ROUND(battery_row_written)
ROUND(battery_read)
ROUND(battery_written)

static const struct {
    const char *name;
    double (*ours)(void), (*by_hand)(void);
    call *first, *second;
} rows[] = {
    {"NodeStatus, row, decode", round_status_row_read, round_status_row_read_by_hand, status_row_read, status_row_read_by_hand},
    {"NodeStatus, row, encode", round_status_row_written, round_status_row_written_by_hand, status_row_written, status_row_written_by_hand},
    {"NodeStatus, struct, decode", round_status_read, round_status_read_by_hand, status_read, status_read_by_hand},
    {"NodeStatus, struct, encode", round_status_written, round_status_written_by_hand, status_written, status_written_by_hand},
    {"BatteryInfo, row, decode", round_battery_row_read, round_battery_row_read_by_hand, battery_row_read, battery_row_read_by_hand},
    {"BatteryInfo, row, encode", round_battery_row_written, round_battery_row_written_by_hand, battery_row_written,
     battery_row_written_by_hand},
    {"BatteryInfo, struct, decode", round_battery_read, round_battery_read_by_hand, battery_read, battery_read_by_hand},
    {"BatteryInfo, struct, encode", round_battery_written, round_battery_written_by_hand, battery_written, battery_written_by_hand},
};
enum { ROWS = sizeof rows / sizeof rows[0] };

/* Both give the same number or word, and leave the same row, struct and output. */
static int alike(size_t k, size_t i)
{
    static uint8_t first[sizeof row + sizeof out + sizeof status + sizeof battery], second[sizeof first];
    uint64_t one, other;
    for (int side = 0; side < 2; side++) {
        uint8_t *left = side == 0 ? first : second;
        memset(row, 0, sizeof row);
        memset(out, 0, sizeof out);
        memset(&status, 0, sizeof status);
        memset(&battery, 0, sizeof battery);
        if (side == 0)
            one = rows[k].first(i);
        else
            other = rows[k].second(i);
        memcpy(left, row, sizeof row);
        memcpy(left + sizeof row, out, sizeof out);
        memcpy(left + sizeof row + sizeof out, &status, sizeof status);
        left += sizeof row + sizeof out + sizeof status;
        memcpy(left, &battery.temperature, 28);
        left[28] = (uint8_t)battery.state_of_charge_pct;
        left[29] = (uint8_t)battery.model_name.len;
    }
    return one == other && memcmp(first, second, sizeof first) == 0;
}

int main(void)
{
    double ours[ROWS], by_hand[ROWS];
    for (size_t i = 0; i < MESSAGES; i++)
        fill(i);
    for (size_t k = 0; k < ROWS; k++) {
        ours[k] = by_hand[k] = 1e18;
        for (size_t i = 0; i < MESSAGES; i++)
            if (!alike(k, i)) {
                printf("%s: the two DISAGREE\n", rows[k].name);
                return 1;
            }
    }
    for (int round = 0; round < ROUNDS; round++)
        for (size_t k = 0; k < ROWS; k++) {
            double a = rows[k].ours(), b = rows[k].by_hand();
            ours[k] = a < ours[k] ? a : ours[k];
            by_hand[k] = b < by_hand[k] ? b : by_hand[k];
        }
    printf("%-32s %10s %10s %8s\n", "messages from C, ns a call", "proved", "by hand", "ratio");
    for (size_t k = 0; k < ROWS; k++)
        printf("%-32s %10.1f %10.1f %8.2f\n", rows[k].name, ours[k], by_hand[k], ours[k] / by_hand[k]);
    return 0;
}
