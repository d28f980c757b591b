/* Works out the signatures of two types of a vendor's own, one nested in the other, from their definitions, and shows the fault of a
 * definition that is not in the grammar.
 *
 *     gcc -std=c99 -Iinclude -o signatures examples/signatures.c target/staticlib/libtecelume.a && ./signatures
 *
 * signatures.expected holds what this prints. */
#include <stdio.h>
#include <string.h>

#include "tecelume.h"

struct definition {
    const char *name;
    const char *text;
};

static const struct definition gimbal[] = {
    {"acme.gimbal.Status", "# What the gimbal does.\n"
                           "uint8 MODE_LOCK = 0\n"
                           "uint8 MODE_FOLLOW = 1\n"
                           "uint3 mode\n"
                           "void5\n"
                           "Angles[<4] targets   # at most three\n"},
    {"acme.gimbal.Angles", "float16 pan\n"
                           "float16 tilt\n"},
};

static const struct definition wrong[] = {
    {"acme.gimbal.Zoom", "# One name for two fields.\n"
                         "uint8 factor\n"
                         "uint16 factor\n"},
};

/* The source and the lengths of the definitions, and what they give. */
static uint8_t source[2048];
static uint8_t lengths[TECELUME_DEFINITIONS_MAX * TECELUME_LENGTHS_SIZE];
static uint8_t forms[2048];
static uint8_t records[TECELUME_DEFINITIONS_MAX * TECELUME_SIGNED_SIZE];

static uint8_t *put(uint8_t *place, const char *text)
{
    size_t length = strlen(text);
    memcpy(place, text, length);
    return place + length;
}

static void print(const struct definition *definitions, size_t count)
{
    uint8_t *next = source, *length = lengths;
    for (size_t i = 0; i < count; i++) {
        next = put(put(next, definitions[i].name), definitions[i].text);
        length = tecelume_lengths(length, strlen(definitions[i].name), strlen(definitions[i].text));
    }
    tecelume_result result = tecelume_signatures(source, (size_t)(next - source), lengths, (size_t)(length - lengths), forms, sizeof forms,
                                                 records, sizeof records);
    uint32_t number = tecelume_number(result);
    if (number != TECELUME_SUCCESS) {
        printf("%u, %s", (unsigned)number, tecelume_text(number));
        if (number == TECELUME_NOT_IN_GRAMMAR)
            printf(": %s, line %u", definitions[tecelume_definition(result) - 1].name, (unsigned)tecelume_line(result));
        printf("\n");
        return;
    }
    const uint8_t *form = forms;
    for (size_t i = 0; i < count; i++) {
        const uint8_t *record = records + i * TECELUME_SIGNED_SIZE;
        uint64_t signature = tecelume_form_signature(record);
        printf("%s 0x%08X%08X\n", definitions[i].name, (unsigned)(signature >> 32), (unsigned)(signature & 0xFFFFFFFFu));
        printf("%.*s\n", (int)tecelume_form_length(record), (const char *)form);
        form += tecelume_form_length(record);
    }
}

int main(void)
{
    print(gimbal, sizeof gimbal / sizeof gimbal[0]);
    print(wrong, sizeof wrong / sizeof wrong[0]);
    return 0;
}
