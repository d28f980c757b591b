/* Tries what include/tecelume.h says in words of type definitions. */
#include <stdio.h>
#include <string.h>

#include "sentence.h"
#include "tecelume.h"

enum { NINE = TECELUME_DEFINITIONS_MAX + 1, ROOM = 1000, SOURCE = NINE * (TECELUME_TEXT_MAX + 200) };

struct definition {
    const char *name, *text;
};

static uint8_t source[SOURCE], lengths[NINE * TECELUME_LENGTHS_SIZE];
static uint8_t out[ROOM + 1], records[NINE * TECELUME_SIGNED_SIZE + 1];
static size_t source_len, lengths_len;

static void give_bytes(const char *name, size_t name_len, const char *text, size_t text_len)
{
    memcpy(source + source_len, name, name_len);
    memcpy(source + source_len + name_len, text, text_len);
    source_len += name_len + text_len;
    lengths_len = (size_t)(tecelume_lengths(lengths + lengths_len, name_len, text_len) - lengths);
}

static void give(const struct definition *definitions, size_t count)
{
    source_len = lengths_len = 0;
    for (size_t i = 0; i < count; i++)
        give_bytes(definitions[i].name, strlen(definitions[i].name), definitions[i].text, strlen(definitions[i].text));
}

/* The call with so much room, on what was given; it may write only what a success gives. */
static tecelume_result call(size_t room, size_t records_len)
{
    static uint8_t out_before[sizeof out], records_before[sizeof records];
    size_t forms = 0, signed_len = 0;
    memset(out, 0xA5, sizeof out);
    memset(records, 0x5A, sizeof records);
    memcpy(out_before, out, sizeof out);
    memcpy(records_before, records, sizeof records);
    tecelume_result result = tecelume_signatures(source, source_len, lengths, lengths_len, out, room, records, records_len);
    if (tecelume_number(result) == TECELUME_SUCCESS)
        for (; signed_len / TECELUME_SIGNED_SIZE < lengths_len / TECELUME_LENGTHS_SIZE; signed_len += TECELUME_SIGNED_SIZE)
            forms += tecelume_form_length(records + signed_len);
    CHECK(forms <= room && memcmp(out + forms, out_before + forms, sizeof out - forms) == 0);
    CHECK(memcmp(records + signed_len, records_before + signed_len, sizeof records - signed_len) == 0);
    CHECK(tecelume_number(result) == TECELUME_NOT_IN_GRAMMAR || (tecelume_definition(result) == 0 && tecelume_line(result) == 0));
    return result;
}

static uint32_t number_of(const struct definition *definitions, size_t count)
{
    give(definitions, count);
    return tecelume_number(call(ROOM, sizeof records));
}

static bool is_at_fault(const struct definition *definitions, size_t count, uint32_t definition, uint32_t line)
{
    give(definitions, count);
    tecelume_result result = call(ROOM, sizeof records);
    return tecelume_number(result) == TECELUME_NOT_IN_GRAMMAR && tecelume_definition(result) == definition && tecelume_line(result) == line;
}

static const struct definition log_message[] = {
    {"uavcan.protocol.debug.LogMessage", "LogLevel level\r\nuint8[<32]  source # which part\r\nuint8[<=0x5A] text"},
    {"uavcan.protocol.debug.LogLevel", "uint3 DEBUG = 0\nuint3 value\n"},
};
static const char log_forms[] = "uavcan.protocol.debug.LogMessage\nuavcan.protocol.debug.LogLevel level\n"
                                "saturated uint8[<=31] source\nsaturated uint8[<=90] text"
                                "uavcan.protocol.debug.LogLevel\nsaturated uint3 value";

/* The forms one after another, and the public numbers. */
void forms_and_signatures(void)
{
    size_t length = strlen(log_forms), first = (size_t)(strstr(log_forms, "textuavcan") + 4 - log_forms);
    give(log_message, 2);
    CHECK(tecelume_number(call(length, 2 * TECELUME_SIGNED_SIZE)) == TECELUME_SUCCESS);
    CHECK(memcmp(out, log_forms, length) == 0);
    CHECK(tecelume_form_length(records) == first);
    CHECK(tecelume_form_length(records + TECELUME_SIGNED_SIZE) == length - first);
    CHECK(tecelume_form_signature(records) == tecelume_signature(TECELUME_KIND_MESSAGE, 16383));
    CHECK(tecelume_form_signature(records + TECELUME_SIGNED_SIZE) == 0x711BF141AF572346u);
}

/* No definition; and what is behind the definitions. */
void given_and_ignored(void)
{
    give(log_message, 0);
    CHECK(tecelume_number(tecelume_signatures(NULL, 0, NULL, 0, NULL, 0, NULL, 0)) == TECELUME_SUCCESS);
    CHECK(tecelume_number(call(0, 0)) == TECELUME_SUCCESS);
    give(log_message, 2);
    source[source_len++] = '?';
    memset(lengths + lengths_len, 255, TECELUME_LENGTHS_SIZE - 1);
    lengths_len += TECELUME_LENGTHS_SIZE - 1;
    CHECK(tecelume_number(call(ROOM, sizeof records)) == TECELUME_SUCCESS);
    CHECK(memcmp(out, log_forms, strlen(log_forms)) == 0);
}

/* The first definition at fault and its first line at fault, empty lines and comments counted; 0 for the name. */
void definition_and_line(void)
{
    static const struct definition given[] = {
        {"a.T", "# one\n\nuint8 x\n"}, {"a.U", "# one\r\n\r\nuint8 x\r\nuint8 x\r\n?"}, {"a.V", "?"}, {"V", "?"}};
    CHECK(is_at_fault(given, 4, 2, 4));
    CHECK(is_at_fault(given + 1, 3, 1, 4));
    CHECK(is_at_fault(given + 2, 2, 1, 1));
    CHECK(is_at_fault(given + 3, 1, 1, 0));
    CHECK(number_of(given, 1) == TECELUME_SUCCESS);
}

/* Each refusal, where all that come after it apply, too. */
void refused_definitions(void)
{
    static const struct definition given[] = {{"a.T", "T x"}, {"a.U", "V x"}, {"a.W", "?"}, {"a.W", ""}};
    static const struct definition service[] = {{"a.T", "S x"}, {"a.S", "S x\n---"}};
    give(given, 4);
    CHECK(tecelume_number(call(0, 0)) == TECELUME_DEFINITIONS_TOO_LARGE);
    give(given, 3);
    CHECK(tecelume_number(call(0, 0)) == TECELUME_NOT_IN_GRAMMAR);
    give(given, 2);
    CHECK(tecelume_number(call(0, 0)) == TECELUME_NESTED_NOT_GIVEN);
    give(service, 2);
    CHECK(tecelume_number(call(0, 0)) == TECELUME_NESTED_NOT_GIVEN);
    give(given, 1);
    CHECK(tecelume_number(call(0, 0)) == TECELUME_NESTED_TOO_DEEP);
    give(given, 3);
    source_len--;
    CHECK(tecelume_number(call(0, 0)) == TECELUME_DEFINITIONS_TOO_LARGE);
}

/* A form may be longer than its text; its room, and that of records, is asked for exactly. */
void room_of_forms(void)
{
    size_t length = strlen(log_forms);
    give(log_message, 2);
    CHECK(tecelume_number(call(length - 1, sizeof records)) == TECELUME_OUTPUT_TOO_SMALL);
    CHECK(tecelume_number(call(length, 2 * TECELUME_SIGNED_SIZE - 1)) == TECELUME_OUTPUT_TOO_SMALL);
    CHECK(tecelume_number(call(length, 2 * TECELUME_SIGNED_SIZE)) == TECELUME_SUCCESS);
}

/* As many definitions as there may be, and one more; a text, a name and a chain as long as they may be, and one more. */
void limits_of_definitions(void)
{
    static char text[TECELUME_TEXT_MAX + 1], name[TECELUME_NAME_MAX + 1];
    static const struct definition chain[] = {{"a.A", "B x"}, {"a.B", "C x"}, {"a.C", "D x"}, {"a.D", ""}};
    char number[] = "a.T0";
    source_len = lengths_len = 0;
    for (int i = 1; i <= NINE; i++) {
        number[3] = (char)('0' + i);
        give_bytes(number, 4, "", 0);
        CHECK(tecelume_number(call(ROOM, sizeof records)) == (i < NINE ? TECELUME_SUCCESS : TECELUME_DEFINITIONS_TOO_LARGE));
    }
    memset(text, '#', sizeof text);
    memset(name, 'n', sizeof name);
    name[1] = '.';
    for (size_t more = 0; more <= 1; more++) {
        source_len = lengths_len = 0;
        give_bytes("a.T", 3, text, TECELUME_TEXT_MAX + more);
        CHECK(tecelume_number(call(ROOM, sizeof records)) == (more ? TECELUME_DEFINITIONS_TOO_LARGE : TECELUME_SUCCESS));
        source_len = lengths_len = 0;
        give_bytes(name, TECELUME_NAME_MAX + more, "", 0);
        CHECK(tecelume_number(call(ROOM, sizeof records)) == (more ? TECELUME_NOT_IN_GRAMMAR : TECELUME_SUCCESS));
    }
    CHECK(number_of(chain, 4) == TECELUME_SUCCESS);
    give(chain, 3);
    give_bytes("a.D", 3, "E x", 3);
    give_bytes("a.E", 3, "", 0);
    CHECK(tecelume_number(call(ROOM, sizeof records)) == TECELUME_NESTED_TOO_DEEP);
}

/* A length that four bytes do not hold is written as one that the call refuses. */
void lengths_that_are_too_large(void)
{
    size_t large = (size_t)-1;
    give(log_message, 1);
    CHECK(tecelume_lengths(lengths, large, 0) == lengths + TECELUME_LENGTHS_SIZE);
    CHECK(tecelume_number(call(ROOM, sizeof records)) == TECELUME_DEFINITIONS_TOO_LARGE);
    tecelume_lengths(lengths, 3, large);
    CHECK(tecelume_number(call(ROOM, sizeof records)) == TECELUME_DEFINITIONS_TOO_LARGE);
}
