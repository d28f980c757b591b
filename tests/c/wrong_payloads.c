/* Wrong libraries for payloads.c, as in wrong.c. */
#include <string.h>

#include "tecelume.h"
#include "wrong.h"

enum { ROW_MAX = 32, SIGNALLING = 0x7F800001, NAN_16_READ = 0x7FC00000 };

/* The types that a wrong library treats in its own way. */
enum kind { STATUS, INFO, VALUE, BATTERY, COMMANDS, SET, OTHERS };

/* ---- reading ---- */

/* The number in place of the call; OTHER for none. */
static uint32_t misread(enum kind kind, size_t length, size_t places, size_t fields)
{
    if (is("places-before-all") && places < fields)
        return TECELUME_OUTPUT_TOO_SMALL;
    if (is("too-few-places-accepted") && places < fields && length == TECELUME_NODE_STATUS_SIZE)
        return TECELUME_SUCCESS;
    if (is("cut-status-read") && kind == STATUS && length < TECELUME_NODE_STATUS_SIZE)
        return TECELUME_SUCCESS;
    return OTHER;
}

/* Spoils what was read. */
static void touch_row(enum kind kind, const uint8_t *payload, uint64_t *row, size_t places, uint32_t number)
{
    if (number != TECELUME_SUCCESS && is("refusal-touches-a-row") && places > 0)
        row[0] ^= 1;
    if (number != TECELUME_SUCCESS)
        return;
    if (is("row-touched-behind") && kind == STATUS && places > TECELUME_NODE_STATUS_FIELDS)
        row[TECELUME_NODE_STATUS_FIELDS] ^= 1;
    if (is("sub-mode-told") && kind == STATUS)
        row[3] = payload[4] & 7;
    if (is("nan-of-16-bits-kept") && kind == BATTERY && row[0] == NAN_16_READ)
        row[0] = 0xFFC02000;
    if (is("nan-quieted") && kind == VALUE && row[0] == SIGNALLING)
        row[0] |= 0x400000;
    if (is("first-letter-is-a-length") && kind == INFO) {
        row[16]++;
        row[17]--;
    }
    if (is("certificate-with-its-length") && kind == INFO)
        row[14]--;
    if (is("places-past-the-count-kept") && kind == COMMANDS)
        row[3] = 1;
    if (is("text-of-another-case-told") && kind == SET)
        row[3] = 2;
}

#define READER(type, kind, fields)                                                                                                    \
    uint32_t __real_tecelume_decode_##type##_fields(const uint8_t *payload, size_t length, uint64_t *row, size_t places);              \
    uint32_t __wrap_tecelume_decode_##type##_fields(const uint8_t *payload, size_t length, uint64_t *row, size_t places);              \
    uint32_t __wrap_tecelume_decode_##type##_fields(const uint8_t *payload, size_t length, uint64_t *row, size_t places)               \
    {                                                                                                                                  \
        uint32_t number = misread(kind, length, places, fields);                                                                       \
        if (number != OTHER)                                                                                                           \
            return number;                                                                                                             \
        number = __real_tecelume_decode_##type##_fields(payload, length, row, places);                                                 \
        touch_row(kind, payload, row, places, number);                                                                                 \
        return (uint32_t)answer(number, OTHER);                                                                                        \
    }

READER(node_status, STATUS, TECELUME_NODE_STATUS_FIELDS)
READER(get_node_info_request, OTHERS, TECELUME_GET_NODE_INFO_REQUEST_FIELDS)
READER(get_node_info_response, INFO, TECELUME_GET_NODE_INFO_RESPONSE_FIELDS)
READER(key_value, VALUE, TECELUME_KEY_VALUE_FIELDS)
READER(log_message, OTHERS, TECELUME_LOG_MESSAGE_FIELDS)
READER(battery_info, BATTERY, TECELUME_BATTERY_INFO_FIELDS)
READER(raw_command, COMMANDS, TECELUME_RAW_COMMAND_FIELDS)
READER(get_set_response, SET, TECELUME_GET_SET_RESPONSE_FIELDS)

/* ---- writing ---- */

/* What is given to the true call in place of what came. */
struct given {
    uint64_t row[ROW_MAX];
    size_t room;
};

static struct given misgiven(enum kind kind, const uint64_t *row, size_t numbers, size_t room)
{
    struct given g = {{0}, room};
    if (numbers > 0)
        memcpy(g.row, row, 8 * numbers);
    g.room += is("less-room-for-a-message");
    g.room -= is("more-room-for-a-message") && room > 0;
    if (is("health-cut") && kind == STATUS)
        g.row[1] &= 3;
    if (is("commands-cut") && kind == COMMANDS && g.row[1] == 40000)
        g.row[1] = 40000 & 8191;
    if (is("count-clipped") && kind == COMMANDS && g.row[0] > 20)
        g.row[0] = 20;
    if (is("float-cut") && kind == VALUE)
        g.row[0] &= UINT32_MAX;
    if (is("nan-quieted-in-writing") && kind == VALUE && g.row[0] == SIGNALLING)
        g.row[0] |= 0x400000;
    if (is("tag-clipped") && kind == SET && g.row[8] > 2)
        g.row[8] = 2;
    return g;
}

/* The number in place of the call; OTHER for none. */
static uint32_t miswritten(enum kind kind, const uint64_t *row, size_t numbers, size_t fields, size_t room)
{
    if (is("room-before-the-row") && numbers < fields && room == 0)
        return TECELUME_OUTPUT_TOO_SMALL;
    if (is("room-before-27") && kind == SET && room == 0)
        return TECELUME_OUTPUT_TOO_SMALL;
    if (is("17-before-27") && kind == SET && row[8] > 2)
        return TECELUME_NOT_ALLOWED;
    return OTHER;
}

static uint64_t touched(enum kind kind, const uint64_t *row, uint8_t *out, uint64_t word)
{
    uint32_t number = (uint32_t)(word & 255);
    if (is("refusal-touches-a-message") && number != TECELUME_SUCCESS && out != NULL)
        out[0] ^= 1;
    if (is("output-touched-after-a-message") && kind == STATUS && number == TECELUME_SUCCESS)
        out[word >> 8] ^= 1;
    if (is("sub-mode-written") && kind == STATUS && number == TECELUME_SUCCESS)
        out[4] |= (uint8_t)(row[3] & 7);
    if (is("infinity-above-65504") && kind == BATTERY && number == TECELUME_SUCCESS && out[3] == 0x7B)
        out[3] = 0x7C;
    if (is("length-not-told") && number == TECELUME_SUCCESS)
        return number;
    return word;
}

/* LISTS and PASSED are the parameters and the arguments of the lists, with a comma after each. */
#define WRITER(type, kind, fields, LISTS, PASSED)                                                                                     \
    uint64_t __real_tecelume_encode_##type##_fields(const uint64_t *row, size_t numbers, LISTS uint8_t *out, size_t room);             \
    uint64_t __wrap_tecelume_encode_##type##_fields(const uint64_t *row, size_t numbers, LISTS uint8_t *out, size_t room);             \
    uint64_t __wrap_tecelume_encode_##type##_fields(const uint64_t *row, size_t numbers, LISTS uint8_t *out, size_t room)              \
    {                                                                                                                                  \
        struct given g = misgiven(kind, row, numbers, room);                                                                           \
        uint32_t number = miswritten(kind, row, numbers, fields, room);                                                                \
        if (number != OTHER)                                                                                                           \
            return number;                                                                                                             \
        return answer(touched(kind, row, out, __real_tecelume_encode_##type##_fields(g.row, numbers, PASSED out, g.room)), OTHER);     \
    }
#define NONE
#define ONE const uint8_t *a, size_t b,
#define ONE_PASSED a, b,
#define TWO const uint8_t *a, size_t b, const uint8_t *c, size_t d,
#define TWO_PASSED a, b, c, d,
#define THREE const uint8_t *a, size_t b, const uint8_t *c, size_t d, const uint8_t *e, size_t f,
#define THREE_PASSED a, b, c, d, e, f,

WRITER(node_status, STATUS, TECELUME_NODE_STATUS_FIELDS, NONE, NONE)
WRITER(get_node_info_request, OTHERS, TECELUME_GET_NODE_INFO_REQUEST_FIELDS, NONE, NONE)
WRITER(get_node_info_response, INFO, TECELUME_GET_NODE_INFO_RESPONSE_FIELDS, THREE, THREE_PASSED)
WRITER(allocation, OTHERS, TECELUME_ALLOCATION_FIELDS, ONE, ONE_PASSED)
WRITER(key_value, VALUE, TECELUME_KEY_VALUE_FIELDS, ONE, ONE_PASSED)
WRITER(log_message, OTHERS, TECELUME_LOG_MESSAGE_FIELDS, TWO, TWO_PASSED)
WRITER(battery_info, BATTERY, TECELUME_BATTERY_INFO_FIELDS, ONE, ONE_PASSED)
WRITER(raw_command, COMMANDS, TECELUME_RAW_COMMAND_FIELDS, NONE, NONE)
WRITER(get_set_request, OTHERS, TECELUME_GET_SET_REQUEST_FIELDS, TWO, TWO_PASSED)
WRITER(get_set_response, SET, TECELUME_GET_SET_RESPONSE_FIELDS, THREE, THREE_PASSED)
WRITER(execute_opcode_request, OTHERS, TECELUME_EXECUTE_OPCODE_REQUEST_FIELDS, NONE, NONE)
WRITER(execute_opcode_response, OTHERS, TECELUME_EXECUTE_OPCODE_RESPONSE_FIELDS, NONE, NONE)
