/* What messages.h says. A member of a struct is filled and read here one by one, apart from the header. */
#include <string.h>

#include "messages.h"

/* ---- rows ---- */

#define NO_LISTS(type)                                                                                                                \
    static uint64_t encode_##type(const uint64_t *row, size_t numbers, const tecelume_bytes *l, uint8_t *out, size_t room)             \
    {                                                                                                                                  \
        (void)l;                                                                                                                       \
        return tecelume_encode_##type##_fields(row, numbers, out, room);                                                               \
    }
#define ONE_LIST(type)                                                                                                                \
    static uint64_t encode_##type(const uint64_t *row, size_t numbers, const tecelume_bytes *l, uint8_t *out, size_t room)             \
    {                                                                                                                                  \
        return tecelume_encode_##type##_fields(row, numbers, l[0].at, l[0].len, out, room);                                            \
    }
#define TWO_LISTS(type)                                                                                                               \
    static uint64_t encode_##type(const uint64_t *row, size_t numbers, const tecelume_bytes *l, uint8_t *out, size_t room)             \
    {                                                                                                                                  \
        return tecelume_encode_##type##_fields(row, numbers, l[0].at, l[0].len, l[1].at, l[1].len, out, room);                         \
    }
#define THREE_LISTS(type)                                                                                                             \
    static uint64_t encode_##type(const uint64_t *row, size_t numbers, const tecelume_bytes *l, uint8_t *out, size_t room)             \
    {                                                                                                                                  \
        return tecelume_encode_##type##_fields(row, numbers, l[0].at, l[0].len, l[1].at, l[1].len, l[2].at, l[2].len, out, room);      \
    }

NO_LISTS(node_status)
ONE_LIST(allocation)
ONE_LIST(key_value)
TWO_LISTS(log_message)
NO_LISTS(get_node_info_request)
THREE_LISTS(get_node_info_response)
ONE_LIST(battery_info)
NO_LISTS(raw_command)
TWO_LISTS(get_set_request)
THREE_LISTS(get_set_response)
NO_LISTS(execute_opcode_request)
NO_LISTS(execute_opcode_response)

/* ---- structs ---- */

/* Reading into a struct: its bytes are any before, and stay under a refusal; a touched one gives a number that no call gives. */
#define INTO(type, one)                                                                                                               \
    tecelume_##type one, before;                                                                                                      \
    uint32_t number;                                                                                                                  \
    memset(&one, 0x5A, sizeof one);                                                                                                   \
    memcpy(&before, &one, sizeof one);                                                                                                \
    number = tecelume_decode_##type(payload, payload_len, &one);                                                                      \
    if (number != TECELUME_SUCCESS)                                                                                                   \
        return memcmp(&before, &one, sizeof one) == 0 ? number : 255

static uint64_t float_bits(const float *value)
{
    uint32_t bits;
    memcpy(&bits, value, sizeof bits);
    return bits;
}

static void set_float(float *value, uint64_t number)
{
    uint32_t bits = (uint32_t)number;
    memcpy(value, &bits, sizeof bits);
}

static void put_list(uint64_t *row, const uint8_t *payload, tecelume_bytes list)
{
    row[0] = (uint64_t)(list.at - payload);
    row[1] = list.len;
}

/* The nearest number that a member holds. */
static uint32_t to_u32(uint64_t number)
{
    return (uint32_t)(number < UINT32_MAX ? number : UINT32_MAX);
}

static int64_t to_i64(uint64_t number)
{
    return number <= INT64_MAX ? (int64_t)number : -(int64_t)(UINT64_MAX - number) - 1;
}

static int32_t to_i32(uint64_t number)
{
    int64_t value = to_i64(number);
    return (int32_t)(value > INT32_MAX ? INT32_MAX : value < INT32_MIN ? INT32_MIN : value);
}

static void put_status(uint64_t *row, const tecelume_node_status *one)
{
    row[0] = one->uptime_sec;
    row[1] = one->health;
    row[2] = one->mode;
    row[3] = one->sub_mode;
    row[4] = one->vendor_specific_status_code;
}

static void set_status(tecelume_node_status *one, const uint64_t *row)
{
    one->uptime_sec = to_u32(row[0]);
    one->health = to_u32(row[1]);
    one->mode = to_u32(row[2]);
    one->sub_mode = to_u32(row[3]);
    one->vendor_specific_status_code = to_u32(row[4]);
}

static uint32_t read_node_status(const uint8_t *payload, size_t payload_len, uint64_t *row)
{
    INTO(node_status, one);
    put_status(row, &one);
    return number;
}

static uint64_t write_node_status(const uint64_t *row, const tecelume_bytes *l, uint8_t *out, size_t room)
{
    tecelume_node_status one;
    (void)l;
    set_status(&one, row);
    return tecelume_encode_node_status(&one, out, room).word;
}

static uint32_t read_get_node_info_request(const uint8_t *payload, size_t payload_len, uint64_t *row)
{
    (void)row;
    return tecelume_decode_get_node_info_request(payload, payload_len);
}

static uint64_t write_get_node_info_request(const uint64_t *row, const tecelume_bytes *l, uint8_t *out, size_t room)
{
    (void)row;
    (void)l;
    return tecelume_encode_get_node_info_request(out, room).word;
}

static uint32_t read_get_node_info_response(const uint8_t *payload, size_t payload_len, uint64_t *row)
{
    INTO(get_node_info_response, one);
    put_status(row, &one.status);
    row[5] = one.software_version.major;
    row[6] = one.software_version.minor;
    row[7] = one.software_version.optional_field_flags;
    row[8] = one.software_version.vcs_commit;
    row[9] = one.software_version.image_crc;
    row[10] = one.hardware_version.major;
    row[11] = one.hardware_version.minor;
    put_list(row + 12, payload, one.hardware_version.unique_id);
    put_list(row + 14, payload, one.hardware_version.certificate_of_authenticity);
    put_list(row + 16, payload, one.name);
    return number;
}

static uint64_t write_get_node_info_response(const uint64_t *row, const tecelume_bytes *l, uint8_t *out, size_t room)
{
    tecelume_get_node_info_response one;
    set_status(&one.status, row);
    one.software_version.major = to_u32(row[5]);
    one.software_version.minor = to_u32(row[6]);
    one.software_version.optional_field_flags = to_u32(row[7]);
    one.software_version.vcs_commit = to_u32(row[8]);
    one.software_version.image_crc = row[9];
    one.hardware_version.major = to_u32(row[10]);
    one.hardware_version.minor = to_u32(row[11]);
    one.hardware_version.unique_id = l[0];
    one.hardware_version.certificate_of_authenticity = l[1];
    one.name = l[2];
    return tecelume_encode_get_node_info_response(&one, out, room).word;
}

static uint32_t read_allocation(const uint8_t *payload, size_t payload_len, uint64_t *row)
{
    INTO(allocation, one);
    row[0] = one.node_id;
    row[1] = one.first_part_of_unique_id;
    put_list(row + 2, payload, one.unique_id);
    return number;
}

static uint64_t write_allocation(const uint64_t *row, const tecelume_bytes *l, uint8_t *out, size_t room)
{
    tecelume_allocation one;
    one.node_id = to_u32(row[0]);
    one.first_part_of_unique_id = to_u32(row[1]);
    one.unique_id = l[0];
    return tecelume_encode_allocation(&one, out, room).word;
}

static uint32_t read_key_value(const uint8_t *payload, size_t payload_len, uint64_t *row)
{
    INTO(key_value, one);
    row[0] = float_bits(&one.value);
    put_list(row + 1, payload, one.key);
    return number;
}

static uint64_t write_key_value(const uint64_t *row, const tecelume_bytes *l, uint8_t *out, size_t room)
{
    tecelume_key_value one;
    set_float(&one.value, row[0]);
    one.key = l[0];
    return tecelume_encode_key_value(&one, out, room).word;
}

static uint32_t read_log_message(const uint8_t *payload, size_t payload_len, uint64_t *row)
{
    INTO(log_message, one);
    row[0] = one.level;
    put_list(row + 1, payload, one.source);
    put_list(row + 3, payload, one.text);
    return number;
}

static uint64_t write_log_message(const uint64_t *row, const tecelume_bytes *l, uint8_t *out, size_t room)
{
    tecelume_log_message one;
    one.level = to_u32(row[0]);
    one.source = l[0];
    one.text = l[1];
    return tecelume_encode_log_message(&one, out, room).word;
}

static uint32_t read_battery_info(const uint8_t *payload, size_t payload_len, uint64_t *row)
{
    INTO(battery_info, one);
    row[0] = float_bits(&one.temperature);
    row[1] = float_bits(&one.voltage);
    row[2] = float_bits(&one.current);
    row[3] = float_bits(&one.average_power_10sec);
    row[4] = float_bits(&one.remaining_capacity_wh);
    row[5] = float_bits(&one.full_charge_capacity_wh);
    row[6] = float_bits(&one.hours_to_full_charge);
    row[7] = one.status_flags;
    row[8] = one.state_of_health_pct;
    row[9] = one.state_of_charge_pct;
    row[10] = one.state_of_charge_pct_stdev;
    row[11] = one.battery_id;
    row[12] = one.model_instance_id;
    put_list(row + 13, payload, one.model_name);
    return number;
}

static uint64_t write_battery_info(const uint64_t *row, const tecelume_bytes *l, uint8_t *out, size_t room)
{
    tecelume_battery_info one;
    set_float(&one.temperature, row[0]);
    set_float(&one.voltage, row[1]);
    set_float(&one.current, row[2]);
    set_float(&one.average_power_10sec, row[3]);
    set_float(&one.remaining_capacity_wh, row[4]);
    set_float(&one.full_charge_capacity_wh, row[5]);
    set_float(&one.hours_to_full_charge, row[6]);
    one.status_flags = to_u32(row[7]);
    one.state_of_health_pct = to_u32(row[8]);
    one.state_of_charge_pct = to_u32(row[9]);
    one.state_of_charge_pct_stdev = to_u32(row[10]);
    one.battery_id = to_u32(row[11]);
    one.model_instance_id = to_u32(row[12]);
    one.model_name = l[0];
    return tecelume_encode_battery_info(&one, out, room).word;
}

static uint32_t read_raw_command(const uint8_t *payload, size_t payload_len, uint64_t *row)
{
    INTO(raw_command, one);
    row[0] = one.count;
    for (size_t i = 0; i < TECELUME_COMMANDS_MAX; i++)
        row[1 + i] = (uint64_t)(int64_t)one.cmd[i];
    return number;
}

static uint64_t write_raw_command(const uint64_t *row, const tecelume_bytes *l, uint8_t *out, size_t room)
{
    tecelume_raw_command one;
    (void)l;
    one.count = row[0] < SIZE_MAX ? (size_t)row[0] : SIZE_MAX;
    for (size_t i = 0; i < TECELUME_COMMANDS_MAX; i++)
        one.cmd[i] = to_i32(row[1 + i]);
    return tecelume_encode_raw_command(&one, out, room).word;
}

/* The member of the case that the tag names. Those of the others have to be 0; if not, the tag is wrong here. */
static void put_number(uint64_t *row, uint32_t tag, int64_t integer, const float *real, uint32_t boolean)
{
    uint64_t cases[5] = {0, 0, 0, 0, 0};
    cases[TECELUME_PARAM_INTEGER_VALUE] = (uint64_t)integer;
    cases[TECELUME_PARAM_REAL_VALUE] = float_bits(real);
    cases[TECELUME_PARAM_BOOLEAN_VALUE] = boolean;
    row[1] = tag < 5 ? cases[tag] : 0;
    if (tag < 5)
        cases[tag] = 0;
    row[0] = (cases[1] | cases[2] | cases[3]) == 0 ? tag : 255;
}

static void put_value(uint64_t *row, const uint8_t *payload, const tecelume_param_value *one)
{
    put_number(row, one->tag, one->integer_value, &one->real_value, one->boolean_value);
    put_list(row + 2, payload, one->string_value);
}

static void put_numeric_value(uint64_t *row, const tecelume_param_numeric_value *one)
{
    put_number(row, one->tag, one->integer_value, &one->real_value, 0);
}

/* What the cases that the tag does not name hold must not matter: it is anything. */
static void set_value(tecelume_param_value *one, const uint64_t *row, tecelume_bytes text)
{
    memset(one, 0xA7, sizeof *one);
    one->tag = to_u32(row[0]);
    if (one->tag == TECELUME_PARAM_INTEGER_VALUE)
        one->integer_value = to_i64(row[1]);
    if (one->tag == TECELUME_PARAM_REAL_VALUE)
        set_float(&one->real_value, row[1]);
    if (one->tag == TECELUME_PARAM_BOOLEAN_VALUE)
        one->boolean_value = to_u32(row[1]);
    one->string_value = text;
}

static void set_numeric_value(tecelume_param_numeric_value *one, const uint64_t *row)
{
    memset(one, 0xA7, sizeof *one);
    one->tag = to_u32(row[0]);
    if (one->tag == TECELUME_PARAM_INTEGER_VALUE)
        one->integer_value = to_i64(row[1]);
    if (one->tag == TECELUME_PARAM_REAL_VALUE)
        set_float(&one->real_value, row[1]);
}

static uint32_t read_get_set_request(const uint8_t *payload, size_t payload_len, uint64_t *row)
{
    INTO(get_set_request, one);
    row[0] = one.index;
    put_value(row + 1, payload, &one.value);
    put_list(row + 5, payload, one.name);
    return number;
}

static uint64_t write_get_set_request(const uint64_t *row, const tecelume_bytes *l, uint8_t *out, size_t room)
{
    tecelume_get_set_request one;
    one.index = to_u32(row[0]);
    set_value(&one.value, row + 1, l[0]);
    one.name = l[1];
    return tecelume_encode_get_set_request(&one, out, room).word;
}

static uint32_t read_get_set_response(const uint8_t *payload, size_t payload_len, uint64_t *row)
{
    INTO(get_set_response, one);
    put_value(row, payload, &one.value);
    put_value(row + 4, payload, &one.default_value);
    put_numeric_value(row + 8, &one.max_value);
    put_numeric_value(row + 10, &one.min_value);
    put_list(row + 12, payload, one.name);
    return number;
}

static uint64_t write_get_set_response(const uint64_t *row, const tecelume_bytes *l, uint8_t *out, size_t room)
{
    tecelume_get_set_response one;
    set_value(&one.value, row, l[0]);
    set_value(&one.default_value, row + 4, l[1]);
    set_numeric_value(&one.max_value, row + 8);
    set_numeric_value(&one.min_value, row + 10);
    one.name = l[2];
    return tecelume_encode_get_set_response(&one, out, room).word;
}

static uint32_t read_execute_opcode_request(const uint8_t *payload, size_t payload_len, uint64_t *row)
{
    INTO(execute_opcode_request, one);
    row[0] = one.opcode;
    row[1] = (uint64_t)one.argument;
    return number;
}

static uint64_t write_execute_opcode_request(const uint64_t *row, const tecelume_bytes *l, uint8_t *out, size_t room)
{
    tecelume_execute_opcode_request one;
    (void)l;
    one.opcode = to_u32(row[0]);
    one.argument = to_i64(row[1]);
    return tecelume_encode_execute_opcode_request(&one, out, room).word;
}

static uint32_t read_execute_opcode_response(const uint8_t *payload, size_t payload_len, uint64_t *row)
{
    INTO(execute_opcode_response, one);
    row[0] = (uint64_t)one.argument;
    row[1] = one.ok;
    return number;
}

static uint64_t write_execute_opcode_response(const uint64_t *row, const tecelume_bytes *l, uint8_t *out, size_t room)
{
    tecelume_execute_opcode_response one;
    (void)l;
    one.argument = to_i64(row[0]);
    one.ok = to_u32(row[1]);
    return tecelume_encode_execute_opcode_response(&one, out, room).word;
}

/* ---- all of them ---- */

#define TYPE(type, numbers, lists, floats, ...)                                                                                       \
    {                                                                                                                                  \
        #type, numbers, lists, tecelume_decode_##type##_fields, encode_##type, read_##type, write_##type, floats, __VA_ARGS__          \
    }

const struct message_type message_types[TYPES] = {
    TYPE(node_status, TECELUME_NODE_STATUS_FIELDS, 0, 0, 0, {0}),
    TYPE(allocation, TECELUME_ALLOCATION_FIELDS, 1, 0, 0, {0}),
    TYPE(key_value, TECELUME_KEY_VALUE_FIELDS, 1, 1, 0, {0}),
    TYPE(log_message, TECELUME_LOG_MESSAGE_FIELDS, 2, 0, 0, {0}),
    TYPE(get_node_info_request, TECELUME_GET_NODE_INFO_REQUEST_FIELDS, 0, 0, 0, {0}),
    TYPE(get_node_info_response, TECELUME_GET_NODE_INFO_RESPONSE_FIELDS, 3, 0, 0, {0}),
    TYPE(battery_info, TECELUME_BATTERY_INFO_FIELDS, 1, 7, 0, {0}),
    TYPE(raw_command, TECELUME_RAW_COMMAND_FIELDS, 0, 0, 0, {0}),
    TYPE(get_set_request, TECELUME_GET_SET_REQUEST_FIELDS, 2, 0, 1, {1}),
    TYPE(get_set_response, TECELUME_GET_SET_RESPONSE_FIELDS, 3, 0, 4, {0, 4, 8, 10}),
    TYPE(execute_opcode_request, TECELUME_EXECUTE_OPCODE_REQUEST_FIELDS, 0, 0, 0, {0}),
    TYPE(execute_opcode_response, TECELUME_EXECUTE_OPCODE_RESPONSE_FIELDS, 0, 0, 0, {0}),
};
