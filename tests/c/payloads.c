/* Tries what include/tecelume.h says in words of messages. messages.c compares every type with the second implementation. */
#include <string.h>

#include "sentence.h"
#include "tecelume.h"

enum { ROOM = 400, NAN_16 = 0xFE01, NAN_16_WRITTEN = 0x7E00, NAN_16_READ = 0x7FC00000, SIGNALLING = 0x7F800001, STRANGE = 0x5A };

static uint8_t out[ROOM];
static const uint8_t letters[300] = {'a'};

static tecelume_bytes text(const char *t)
{
    return tecelume_list(t, strlen(t));
}

/* A name of so many letters. */
static tecelume_bytes name_of(size_t length)
{
    static uint8_t name[300];
    memset(name, 'a', sizeof name);
    return tecelume_list(name, length);
}

static bool is_text(tecelume_bytes l, const char *t)
{
    return l.len == strlen(t) && memcmp(l.at, t, l.len) == 0;
}

static uint32_t bits(const float *value)
{
    uint32_t b;
    memcpy(&b, value, sizeof b);
    return b;
}

static void set_bits(float *value, uint32_t b)
{
    memcpy(value, &b, sizeof b);
}

static tecelume_get_node_info_response node_info(const char *name)
{
    tecelume_get_node_info_response m;
    memset(&m, 0, sizeof m);
    m.hardware_version.unique_id = tecelume_list(letters, TECELUME_UNIQUE_ID_SIZE);
    m.name = text(name);
    return m;
}

static tecelume_get_set_response parameter(void)
{
    tecelume_get_set_response m;
    memset(&m, 0, sizeof m);
    return m;
}

/* ---- sentences ---- */

/* Of a writer: in SIZE bytes the longest message is written, in one fewer it is not, and out stays. */
#define LONGEST(type, m, size)                                                                                                        \
    do {                                                                                                                              \
        tecelume_result result = tecelume_encode_##type(&(m), out, size);                                                             \
        CHECK(tecelume_number(result) == TECELUME_SUCCESS && tecelume_length(result) == (size));                                      \
        memset(out, STRANGE, sizeof out);                                                                                             \
        CHECK(tecelume_number(tecelume_encode_##type(&(m), out, (size)-1)) == TECELUME_OUTPUT_TOO_SMALL && out[0] == STRANGE);        \
    } while (0)

/* SIZE bytes of out do for every message of a type, and the longest takes all of them. */
void longest_messages(void)
{
    tecelume_node_status status;
    tecelume_get_node_info_response info = node_info("a");
    tecelume_allocation allocation;
    tecelume_key_value value;
    tecelume_log_message log;
    tecelume_battery_info battery;
    tecelume_raw_command commands;
    tecelume_get_set_request get;
    tecelume_get_set_response set = parameter();
    tecelume_execute_opcode_request request;
    tecelume_execute_opcode_response response;
    memset(&status, 0, sizeof status);
    memset(&allocation, 0, sizeof allocation);
    memset(&value, 0, sizeof value);
    memset(&log, 0, sizeof log);
    memset(&battery, 0, sizeof battery);
    memset(&commands, 0, sizeof commands);
    memset(&get, 0, sizeof get);
    memset(&request, 0, sizeof request);
    memset(&response, 0, sizeof response);
    LONGEST(node_status, status, TECELUME_NODE_STATUS_SIZE);
    info.hardware_version.certificate_of_authenticity = tecelume_list(letters, 255);
    info.name = name_of(80);
    LONGEST(get_node_info_response, info, TECELUME_GET_NODE_INFO_RESPONSE_SIZE);
    allocation.unique_id = tecelume_list(letters, 16);
    LONGEST(allocation, allocation, TECELUME_ALLOCATION_SIZE);
    value.key = tecelume_list(letters, 58);
    LONGEST(key_value, value, TECELUME_KEY_VALUE_SIZE);
    log.source = tecelume_list(letters, 31);
    log.text = tecelume_list(letters, 90);
    LONGEST(log_message, log, TECELUME_LOG_MESSAGE_SIZE);
    battery.model_name = tecelume_list(letters, 31);
    LONGEST(battery_info, battery, TECELUME_BATTERY_INFO_SIZE);
    commands.count = TECELUME_COMMANDS_MAX;
    LONGEST(raw_command, commands, TECELUME_RAW_COMMAND_SIZE);
    get.value.tag = set.value.tag = set.default_value.tag = TECELUME_PARAM_STRING_VALUE;
    get.value.string_value = set.value.string_value = set.default_value.string_value = tecelume_list(letters, 128);
    set.max_value.tag = set.min_value.tag = TECELUME_PARAM_INTEGER_VALUE;
    get.name = set.name = tecelume_list(letters, 92);
    LONGEST(get_set_request, get, TECELUME_GET_SET_REQUEST_SIZE);
    LONGEST(get_set_response, set, TECELUME_GET_SET_RESPONSE_SIZE);
    LONGEST(execute_opcode_request, request, TECELUME_EXECUTE_OPCODE_REQUEST_SIZE);
    LONGEST(execute_opcode_response, response, TECELUME_EXECUTE_OPCODE_RESPONSE_SIZE);
    CHECK(tecelume_encode_get_node_info_request(NULL, 0).word == TECELUME_SUCCESS);
}

/* A number that its field does not hold is written as the nearest that it holds; no member is as narrow as its field. */
void numbers_clipped(void)
{
    tecelume_node_status status = {0, 5, 256, 0, 65536};
    tecelume_allocation allocation;
    tecelume_raw_command commands;
    memset(&allocation, 0, sizeof allocation);
    allocation.node_id = 256;
    memset(&commands, 0, sizeof commands);
    commands.count = 2;
    commands.cmd[0] = 40000;
    commands.cmd[1] = -40000;
    CHECK(tecelume_length(tecelume_encode_node_status(&status, out, sizeof out)) == 7 && out[4] == (3 << 6 | 7 << 3) && out[5] == 255 && out[6] == 255);
    status.health = (uint32_t)-1;
    CHECK(tecelume_length(tecelume_encode_node_status(&status, out, sizeof out)) == 7 && out[4] >> 6 == 3);
    CHECK(tecelume_length(tecelume_encode_allocation(&allocation, out, sizeof out)) == 1 && out[0] == 127 << 1);
    CHECK(tecelume_length(tecelume_encode_raw_command(&commands, out, sizeof out)) == 4);
    CHECK(tecelume_decode_raw_command(out, 4, &commands) == TECELUME_SUCCESS);
    CHECK(commands.count == 2 && commands.cmd[0] == 8191 && commands.cmd[1] == -8192 && commands.cmd[2] == 0);
}

/* A list that was read points into the payload; the first letter of the last one is no length, and no zero ends it. */
void lists_in_the_payload(void)
{
    tecelume_get_node_info_response info = node_info("org.example.node"), read = info;
    tecelume_log_message log;
    const uint8_t line[] = {0x42, 'a', 'b', 'h', 'o', 't'};
    size_t length;
    memset(&log, 0, sizeof log);
    info.hardware_version.certificate_of_authenticity = text("signed");
    length = tecelume_length(tecelume_encode_get_node_info_response(&info, out, sizeof out));
    CHECK(length == 41 + 6 + 16 && tecelume_decode_get_node_info_response(out, length, &read) == TECELUME_SUCCESS);
    CHECK(read.hardware_version.unique_id.at == out + 24 && read.hardware_version.unique_id.len == 16);
    CHECK(read.hardware_version.certificate_of_authenticity.at == out + 41);
    CHECK(is_text(read.hardware_version.certificate_of_authenticity, "signed"));
    CHECK(read.name.at == out + 47 && is_text(read.name, "org.example.node"));
    CHECK(tecelume_decode_log_message(line, sizeof line, &log) == TECELUME_SUCCESS && log.level == TECELUME_LOG_LEVEL_WARNING);
    CHECK(log.source.at == line + 1 && is_text(log.source, "ab") && log.text.at == line + 3 && is_text(log.text, "hot"));
}

/* Two lists may be the same bytes. */
void lists_shared(void)
{
    tecelume_get_set_response set = parameter();
    set.value.tag = set.default_value.tag = TECELUME_PARAM_STRING_VALUE;
    set.value.string_value = set.default_value.string_value = set.name = text("on");
    CHECK(tecelume_length(tecelume_encode_get_set_response(&set, out, sizeof out)) == 12 && memcmp(out, "\4\2on\4\2on\0\0on", 12) == 0);
}

/* An empty list may be (NULL, 0), and what is read of it has no bytes. */
void empty_lists(void)
{
    tecelume_key_value value;
    memset(&value, 0, sizeof value);
    value.key = tecelume_list(NULL, 0);
    CHECK(tecelume_length(tecelume_encode_key_value(&value, out, sizeof out)) == 4);
    CHECK(tecelume_decode_key_value(out, 4, &value) == TECELUME_SUCCESS && value.key.len == 0);
}

/* Every NaN of 16 bits is read as one and written as one; no float of 16 bits is above 65504; one of 32 bits keeps its bits, both ways. */
void floats_of_messages(void)
{
    uint8_t payload[TECELUME_BATTERY_INFO_SIZE] = {NAN_16 & 255, NAN_16 >> 8};
    tecelume_battery_info battery;
    tecelume_key_value value;
    memset(&battery, 0, sizeof battery);
    CHECK(tecelume_decode_battery_info(payload, 23, &battery) == TECELUME_SUCCESS && bits(&battery.temperature) == NAN_16_READ);
    battery.voltage = 70000;
    set_bits(&battery.current, SIGNALLING);
    CHECK(tecelume_length(tecelume_encode_battery_info(&battery, out, sizeof out)) == 23);
    CHECK((out[0] | out[1] << 8) == NAN_16_WRITTEN && (out[2] | out[3] << 8) == 0x7BFF && (out[4] | out[5] << 8) == NAN_16_WRITTEN);
    memset(&value, 0, sizeof value);
    set_bits(&value.value, SIGNALLING);
    CHECK(tecelume_length(tecelume_encode_key_value(&value, out, sizeof out)) == 4 && out[0] == 1 && out[2] == 0x80 && out[3] == 0x7F);
    CHECK(tecelume_decode_key_value(out, 4, &value) == TECELUME_SUCCESS && bits(&value.value) == SIGNALLING);
}

/* The sub-mode is read as 0, and written as 0 whatever it is. */
void sub_mode_is_zero(void)
{
    const uint8_t payload[7] = {1, 0, 0, 0, 7, 0, 0};
    tecelume_node_status status = {0, 0, 0, 1, 0};
    uint64_t row[TECELUME_NODE_STATUS_FIELDS] = {0, 0, 0, 1, 0};
    CHECK(tecelume_decode_node_status(payload, 7, &status) == TECELUME_SUCCESS && status.sub_mode == 0 && status.uptime_sec == 1);
    CHECK(tecelume_decode_node_status_fields(payload, 7, row, TECELUME_NODE_STATUS_FIELDS) == TECELUME_SUCCESS && row[3] == 0);
    status.sub_mode = 7;
    CHECK(tecelume_length(tecelume_encode_node_status(&status, out, sizeof out)) == 7 && out[4] == 0);
}

/* A node name is 1 to 80 bytes of the letters that the header names, both ways; a unique ID has 16 bytes. */
void names_of_nodes(void)
{
    static const char *const bad[] = {"", "Node", "a b", "a/b", "a\x80"};
    tecelume_get_node_info_response info = node_info("a"), read = info;
    for (size_t i = 0; i < sizeof bad / sizeof bad[0]; i++) {
        info = node_info(bad[i]);
        CHECK(tecelume_number(tecelume_encode_get_node_info_response(&info, out, sizeof out)) == TECELUME_NOT_ALLOWED);
        memset(out, 0, sizeof out);
        memcpy(out + 41, bad[i], strlen(bad[i]));
        CHECK(tecelume_decode_get_node_info_response(out, 41 + strlen(bad[i]), &read) == TECELUME_NOT_ALLOWED);
    }
    info = node_info("a.b-c_9");
    CHECK(tecelume_number(tecelume_encode_get_node_info_response(&info, out, sizeof out)) == TECELUME_SUCCESS);
    info.name = name_of(81);
    CHECK(tecelume_number(tecelume_encode_get_node_info_response(&info, out, sizeof out)) == TECELUME_NOT_ALLOWED);
    info.name = name_of(80);
    info.hardware_version.unique_id.len = 15;
    CHECK(tecelume_number(tecelume_encode_get_node_info_response(&info, out, sizeof out)) == TECELUME_NOT_ALLOWED);
}

/* Of a value only the member that the tag names counts; a tag that no case has is 27 before any other refusal. */
void cases_of_a_value(void)
{
    tecelume_get_set_response set = parameter(), read = parameter();
    size_t length;
    set.value.tag = TECELUME_PARAM_BOOLEAN_VALUE;
    set.value.boolean_value = 2;
    set.value.integer_value = 5;
    set.value.string_value = tecelume_list(letters, 200);
    set.default_value.tag = TECELUME_PARAM_STRING_VALUE;
    set.default_value.string_value = text("on");
    set.max_value.tag = TECELUME_PARAM_REAL_VALUE;
    set.max_value.real_value = 1.5f;
    set.min_value.tag = TECELUME_PARAM_INTEGER_VALUE;
    set.min_value.integer_value = -2;
    length = tecelume_length(tecelume_encode_get_set_response(&set, out, sizeof out));
    CHECK(length == 2 + 4 + 5 + 9 && tecelume_decode_get_set_response(out, length, &read) == TECELUME_SUCCESS);
    CHECK(read.value.tag == TECELUME_PARAM_BOOLEAN_VALUE && read.value.boolean_value == 2 && read.value.integer_value == 0);
    CHECK(read.value.string_value.len == 0 && bits(&read.value.real_value) == 0);
    CHECK(read.default_value.tag == TECELUME_PARAM_STRING_VALUE && is_text(read.default_value.string_value, "on"));
    CHECK(read.max_value.real_value == 1.5f && read.max_value.integer_value == 0 && read.min_value.integer_value == -2);
    set.max_value.tag = TECELUME_PARAM_BOOLEAN_VALUE;
    set.name = tecelume_list(letters, 93);
    CHECK(tecelume_number(tecelume_encode_get_set_response(&set, out, 0)) == TECELUME_NO_SUCH_CASE);
    set.max_value.tag = TECELUME_PARAM_EMPTY;
    CHECK(tecelume_number(tecelume_encode_get_set_response(&set, out, 0)) == TECELUME_NOT_ALLOWED);
    set.name.len = 0;
    CHECK(tecelume_number(tecelume_encode_get_set_response(&set, out, 0)) == TECELUME_OUTPUT_TOO_SMALL);
    out[0] = 5;
    CHECK(tecelume_decode_get_set_response(out, length, &read) == TECELUME_NO_SUCH_CASE);
}

/* The members that a tag does not name need not be set: no compiler finds one used that never was. */
void members_never_set(void)
{
    tecelume_get_set_request get;
    tecelume_get_set_response set;
    get.index = 1;
    get.value.tag = TECELUME_PARAM_BOOLEAN_VALUE;
    get.value.boolean_value = 2;
    get.name = text("gain");
    CHECK(tecelume_length(tecelume_encode_get_set_request(&get, out, sizeof out)) == 3 + 4 && memcmp(out, "\1\3\2gain", 7) == 0);
    set.value.tag = TECELUME_PARAM_INTEGER_VALUE;
    set.value.integer_value = -1;
    set.default_value.tag = set.max_value.tag = TECELUME_PARAM_EMPTY;
    set.min_value.tag = TECELUME_PARAM_REAL_VALUE;
    set.min_value.real_value = 0;
    set.name = text("g");
    CHECK(tecelume_length(tecelume_encode_get_set_response(&set, out, sizeof out)) == 9 + 1 + 1 + 5 + 1 && out[0] == 1 && out[8] == 255 && out[11] == 2);
}

/* A refusal leaves a struct as it was; more than 20 commands are refused; bits left over have to be zero. */
void refused_messages(void)
{
    const uint8_t long_status[8] = {0}, cut[6] = {0}, left_over[2] = {1, 1};
    tecelume_node_status status = {9, 1, 2, 3, 4};
    tecelume_raw_command commands;
    CHECK(tecelume_decode_node_status(cut, sizeof cut, &status) == TECELUME_PAYLOAD_ENDS);
    CHECK(tecelume_decode_node_status(long_status, sizeof long_status, &status) == TECELUME_TOO_MANY);
    CHECK(status.uptime_sec == 9 && status.health == 1 && status.mode == 2 && status.sub_mode == 3 && status.vendor_specific_status_code == 4);
    memset(&commands, 0, sizeof commands);
    CHECK(tecelume_decode_raw_command(left_over, sizeof left_over, &commands) == TECELUME_PADDING_NOT_ZERO && commands.count == 0);
    commands.count = TECELUME_COMMANDS_MAX + 1;
    CHECK(tecelume_number(tecelume_encode_raw_command(&commands, out, sizeof out)) == TECELUME_NOT_ALLOWED);
    CHECK(tecelume_decode_get_node_info_request(cut, 1) == TECELUME_TOO_MANY);
    CHECK(tecelume_decode_get_node_info_request(NULL, 0) == TECELUME_SUCCESS);
}

/* A row with too few places answers 8 after all else, one with too few numbers 15 before all else; both leave everything. What is past
 * FIELDS is not touched. */
void rows_of_numbers(void)
{
    const uint8_t payload[7] = {1, 2, 3, 4, 0x98, 5, 6};
    uint64_t row[6] = {STRANGE, STRANGE, STRANGE, STRANGE, STRANGE, STRANGE};
    CHECK(tecelume_decode_node_status_fields(payload, 6, row, 4) == TECELUME_PAYLOAD_ENDS && row[0] == STRANGE);
    CHECK(tecelume_decode_node_status_fields(payload, 7, row, 4) == TECELUME_OUTPUT_TOO_SMALL && row[0] == STRANGE);
    CHECK(tecelume_decode_node_status_fields(payload, 7, row, 6) == TECELUME_SUCCESS);
    CHECK(row[0] == 0x04030201 && row[1] == 2 && row[2] == 3 && row[3] == 0 && row[4] == 0x0605 && row[5] == STRANGE);
    memset(out, STRANGE, sizeof out);
    CHECK(tecelume_encode_node_status_fields(row, 4, out, 0) == TECELUME_PAYLOAD_ENDS && out[0] == STRANGE);
    CHECK(tecelume_encode_node_status_fields(row, 6, out, 7) == 7 << 8 && memcmp(out, payload, 7) == 0 && out[7] == STRANGE);
    row[0] = (uint64_t)1 << 32;
    CHECK(tecelume_encode_key_value_fields(row, 3, NULL, 0, out, 4) == TECELUME_NOT_ALLOWED);
}
