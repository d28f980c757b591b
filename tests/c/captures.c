/* Tries what include/tecelume.h says in words of captures. */
#include <string.h>

#include "seal.h"
#include "sentence.h"
#include "tecelume.h"

enum { LINES = 30, LINE_MAX = 47, DATA_LENGTH = 12, DATA = 13, SLACK = 8, PREFACE = 5 };
enum { LOG_MAX = TECELUME_LOG_SIZE(LINES), CAPTURE_MAX = TECELUME_CAPTURE_SIZE(LINES) };

static const char longest[] = "999999999.999 FFFFFFFF 01 02 03 04 05 06 07 08\n", shortest[] = "0.000 1E000101\n";

static uint8_t out[LOG_MAX + CAPTURE_MAX + SLACK];

typedef tecelume_result conversion(const uint8_t *input, size_t input_len, uint8_t *to, size_t to_len);

/* The call, and that it leaves the input, and the buffer past what it tells to have written. */
static tecelume_result convert(conversion *call, const uint8_t *input, size_t length, size_t room)
{
    static uint8_t input_before[LOG_MAX + CAPTURE_MAX], out_before[sizeof out];
    memcpy(input_before, input, length);
    memset(out, 0xA5, sizeof out);
    memcpy(out_before, out, sizeof out);
    tecelume_result result = call(input, length, out, room);
    size_t written = (size_t)tecelume_output_length(result);
    CHECK(tecelume_number(result) == TECELUME_SUCCESS || written == 0);
    CHECK(written <= room && memcmp(out + written, out_before + written, sizeof out - written) == 0);
    CHECK(memcmp(input, input_before, length) == 0);
    return result;
}

static bool writes(tecelume_result result, const uint8_t *expected, size_t length)
{
    return tecelume_number(result) == TECELUME_SUCCESS && tecelume_output_length(result) == length && memcmp(out, expected, length) == 0;
}

/* So many times this line. */
static size_t put_log(uint8_t *log, const char *line, size_t lines)
{
    size_t length = strlen(line);
    for (size_t i = 0; i < lines; i++)
        memcpy(log + i * length, line, length);
    return lines * length;
}

/* The capture of so many such lines; its length. */
static size_t put_capture(uint8_t *capture, const char *line, size_t lines)
{
    uint8_t log[LOG_MAX];
    size_t length = put_log(log, line, lines);
    tecelume_result result = convert(tecelume_capture, log, length, sizeof out);
    CHECK(tecelume_number(result) == TECELUME_SUCCESS);
    memcpy(capture, out, TECELUME_CAPTURE_SIZE(lines));
    return (size_t)tecelume_output_length(result);
}

/* ---- sentences ---- */

/* A log goes to a capture and back, in just the room that the header names; its longest lines take all of it. */
void log_there_and_back(void)
{
    uint8_t log[LOG_MAX], capture[CAPTURE_MAX];
    for (size_t lines = 0; lines <= LINES; lines += 10) {
        size_t length = put_log(log, longest, lines), size = TECELUME_CAPTURE_SIZE(lines);
        CHECK(length == TECELUME_LOG_SIZE(lines));
        CHECK(tecelume_output_length(convert(tecelume_capture, log, length, size)) == size);
        memcpy(capture, out, size);
        CHECK(writes(convert(tecelume_uncapture, capture, size, length), log, length));
        CHECK(writes(convert(tecelume_capture, log, length, size), capture, size));
    }
}

/* A byte less than it takes; of short lines a log takes less than TECELUME_LOG_SIZE. */
void room_for_captures(void)
{
    uint8_t log[LOG_MAX], capture[CAPTURE_MAX];
    size_t length = put_log(log, shortest, LINES), size = put_capture(capture, shortest, LINES);
    CHECK(size == TECELUME_CAPTURE_SIZE(LINES) && length < TECELUME_LOG_SIZE(LINES));
    CHECK(tecelume_number(convert(tecelume_capture, log, length, size - 1)) == TECELUME_OUTPUT_TOO_SMALL);
    CHECK(writes(convert(tecelume_capture, log, length, size), capture, size));
    CHECK(tecelume_number(convert(tecelume_uncapture, capture, size, length - 1)) == TECELUME_OUTPUT_TOO_SMALL);
    CHECK(writes(convert(tecelume_uncapture, capture, size, length), log, length));
    CHECK(writes(convert(tecelume_uncapture, capture, size, TECELUME_LOG_SIZE(LINES)), log, length));
}

/* No line is a log too: a trailer alone, and the other way no byte and no room. */
void empty_log(void)
{
    static const uint8_t trailer[TECELUME_TRAILER_SIZE] = {0, 0, 0, 0, 0, 0, 0, 0, 0, 0, 0, 0, 0xFF, 0xFF, 'C', 'T'};
    CHECK(writes(convert(tecelume_capture, trailer, 0, sizeof trailer), trailer, sizeof trailer));
    CHECK(writes(convert(tecelume_uncapture, trailer, sizeof trailer, 0), trailer, 0));
}

void preface_ignored(void)
{
    uint8_t log[LOG_MAX], capture[PREFACE + CAPTURE_MAX];
    size_t length = put_log(log, longest, 3), size = put_capture(capture + PREFACE, longest, 3);
    memcpy(capture, "maker", PREFACE);
    CHECK(writes(convert(tecelume_uncapture, capture, PREFACE + size, length), log, length));
}

/* 18 wherever the line is, and before 8. */
void refused_logs(void)
{
    uint8_t log[LOG_MAX];
    size_t length = put_log(log, longest, 3);
    CHECK(tecelume_number(convert(tecelume_capture, log, length - 1, sizeof out)) == TECELUME_LINE_NOT_WELL_FORMED);
    for (size_t line = 0; line < 3; line++) {
        log[line * LINE_MAX + 10] = 'x';
        CHECK(tecelume_number(convert(tecelume_capture, log, length, sizeof out)) == TECELUME_LINE_NOT_WELL_FORMED);
        CHECK(tecelume_number(convert(tecelume_capture, log, length, 0)) == TECELUME_LINE_NOT_WELL_FORMED);
        log[line * LINE_MAX + 10] = '9';
    }
    CHECK(tecelume_number(convert(tecelume_capture, log, length, 0)) == TECELUME_OUTPUT_TOO_SMALL);
}

/* Any byte of records or trailer changed, a byte less or more: 22, before 8. */
void wrong_trailers(void)
{
    uint8_t capture[CAPTURE_MAX];
    size_t size = put_capture(capture, longest, 2);
    for (size_t at = 0; at < size; at++) {
        capture[at] ^= 1;
        CHECK(tecelume_number(convert(tecelume_uncapture, capture, size, at % 2 ? sizeof out : 0)) == TECELUME_NO_CAPTURE);
        capture[at] ^= 1;
    }
    CHECK(tecelume_number(convert(tecelume_uncapture, capture, size - 1, sizeof out)) == TECELUME_NO_CAPTURE);
    CHECK(tecelume_number(convert(tecelume_uncapture, capture + 1, size - 1, sizeof out)) == TECELUME_NO_CAPTURE);
    CHECK(tecelume_number(convert(tecelume_uncapture, capture, 0, sizeof out)) == TECELUME_NO_CAPTURE);
    capture[size] = 0;
    CHECK(tecelume_number(convert(tecelume_uncapture, capture, size + 1, sizeof out)) == TECELUME_NO_CAPTURE);
}

/* A time, a length or bytes that a log has no form for, in the second of two records: 23, before 8. */
void records_not_carried(void)
{
    static const struct {
        size_t at;
        uint8_t value;
    } faults[] = {{0, 1}, {7, 0x10}, {DATA_LENGTH, 9}, {DATA_LENGTH, 255}, {DATA, 1}, {DATA + 7, 0x80}};
    uint8_t capture[CAPTURE_MAX];
    size_t size = put_capture(capture, shortest, 2);
    for (size_t i = 0; i < sizeof faults / sizeof faults[0]; i++) {
        uint8_t *byte = capture + TECELUME_STAMPED_SIZE + faults[i].at, good = *byte;
        *byte = faults[i].value;
        CHECK(tecelume_number(convert(tecelume_uncapture, capture, size, sizeof out)) == TECELUME_NO_CAPTURE);
        seal(capture, size);
        CHECK(tecelume_number(convert(tecelume_uncapture, capture, size, i % 2 ? sizeof out : 0)) == TECELUME_NOT_CARRIED);
        *byte = good;
        seal(capture, size);
    }
    CHECK(tecelume_number(convert(tecelume_uncapture, capture, size, 0)) == TECELUME_OUTPUT_TOO_SMALL);
}

/* What the trailer says, and nothing is checked. */
void count_of_a_capture(void)
{
    uint8_t capture[CAPTURE_MAX];
    size_t size = put_capture(capture, longest, LINES);
    CHECK(tecelume_capture_count(capture, size) == LINES);
    CHECK(tecelume_capture_count(capture + size - TECELUME_TRAILER_SIZE, TECELUME_TRAILER_SIZE) == LINES);
    CHECK(tecelume_capture_count(capture, TECELUME_TRAILER_SIZE - 1) == 0);
    memset(capture, 0xFF, size);
    CHECK(tecelume_capture_count(capture, size) == UINT32_MAX);
}
