/* Tries what include/tecelume.h says in words of handing out node IDs. */
#include <string.h>

#include "sentence.h"
#include "tecelume.h"

enum { OWN = 1, OTHER_OWN = 127, HALF_SECOND = 500000, FIRST = 6, SECOND = 12, WHOLE = TECELUME_UNIQUE_ID_SIZE };
enum { GATHERED = 8, ENTRIES = 9, TABLE = 26, ENTRY = WHOLE + 1 }; /* places in the state (RULES 16.10) */

static const uint8_t one[WHOLE] = {0x44, 0xC0, 0x8B, 0x63, 0x5E, 0x05, 0xF4, 0xBC, 0x10, 0x96, 0xDF, 0x11, 0xA8, 0xBA, 0x54, 0x47};
static const uint8_t other[WHOLE] = {0x44, 0xC0, 0x8B, 0x63, 0x5E, 0x05, 0xF4, 0xBC, 0x10, 0x96, 0xDF, 0x11, 0xA8, 0xBA, 0x54, 0x48};
static const uint8_t third[WHOLE] = {0x45, 0xC0, 0x8B, 0x63, 0x5E, 0x05, 0xF4, 0xBC, 0x10, 0x96, 0xDF, 0x11, 0xA8, 0xBA, 0x54, 0x46};

static uint8_t state[TECELUME_ALLOCATOR_SIZE], out[TECELUME_REPLY_SIZE + 3];

/* All of a call but the message. */
struct setting {
    uint32_t own, source;
    uint64_t marks[2], time;
    size_t room;
};

static const struct setting usual = {OWN, 0, {0, 0}, 0, TECELUME_REPLY_SIZE};

/* What this answer may change in the state: nothing, the number of gathered bytes, or anything. */
static bool leaves(const uint8_t *before, const struct setting *s, tecelume_result result)
{
    bool refused = tecelume_number(result) != TECELUME_SUCCESS && tecelume_number(result) != TECELUME_NONE_FREE;
    if (tecelume_reply_length(result) > 0)
        return true;
    if (refused || s->source != 0 || state[GATHERED] != 0)
        return memcmp(state, before, sizeof state) == 0;
    return memcmp(state, before, GATHERED) == 0 && memcmp(state + ENTRIES, before + ENTRIES, sizeof state - ENTRIES) == 0;
}

static tecelume_result ask(const struct setting *s, const uint8_t *payload, size_t length)
{
    static uint8_t state_before[sizeof state], out_before[sizeof out];
    memcpy(state_before, state, sizeof state);
    memset(out, 0xA5, sizeof out);
    memcpy(out_before, out, sizeof out);
    tecelume_result result =
        tecelume_allocate(state, sizeof state, s->own, s->marks[0], s->marks[1], s->source, payload, length, s->time, out, s->room);
    size_t written = tecelume_reply_length(result);
    CHECK(written <= s->room && memcmp(out + written, out_before + written, sizeof out - written) == 0);
    CHECK(leaves(state_before, s, result));
    return result;
}

/* The message of a node with the bytes of its unique ID from there on. */
static tecelume_result ask_part(const struct setting *s, const uint8_t *unique_id, size_t from, uint32_t preferred)
{
    uint8_t payload[1 + FIRST];
    size_t length = from == SECOND ? WHOLE - SECOND : FIRST;
    payload[0] = (uint8_t)(preferred << 1 | (from == 0));
    memcpy(payload + 1, unique_id + from, length);
    return ask(s, payload, 1 + length);
}

/* Whether a reply has this node ID and so many bytes of the unique ID. */
static bool confirms(tecelume_result result, const uint8_t *unique_id, size_t length, uint32_t node_id)
{
    return tecelume_number(result) == TECELUME_SUCCESS && tecelume_reply_length(result) == 1 + length && out[0] == node_id << 1 &&
           memcmp(out + 1, unique_id, length) == 0;
}

static bool is_ignored(tecelume_result result)
{
    return tecelume_number(result) == TECELUME_SUCCESS && tecelume_reply_length(result) == 0;
}

/* Up to the last message, which is not sent yet. */
static void ask_twice(const struct setting *s, const uint8_t *unique_id)
{
    CHECK(confirms(ask_part(s, unique_id, 0, 1), unique_id, FIRST, 0));
    CHECK(confirms(ask_part(s, unique_id, FIRST, 2), unique_id, SECOND, 0));
}

/* Whether a node that asks gets this ID. */
static bool gets(const struct setting *s, const uint8_t *unique_id, uint32_t preferred, uint32_t node_id)
{
    ask_twice(s, unique_id);
    return confirms(ask_part(s, unique_id, SECOND, preferred), unique_id, WHOLE, node_id);
}

static void begin(void)
{
    CHECK(tecelume_allocator_setup(state, sizeof state) == TECELUME_SUCCESS);
}

/* ---- sentences ---- */

void allocator_and_library(void)
{
    uint8_t longer[sizeof state + 1];
    CHECK(tecelume_allocator_size() == TECELUME_ALLOCATOR_SIZE);
    memset(longer, 0xFF, sizeof longer);
    CHECK(tecelume_allocator_setup(longer, sizeof state - 1) == TECELUME_STATE_FAULT);
    CHECK(longer[0] == 0xFF && longer[sizeof state - 2] == 0xFF);
    CHECK(tecelume_allocator_setup(longer, sizeof longer) == TECELUME_SUCCESS);
    CHECK(tecelume_allocations(longer) == 0 && longer[sizeof state - 1] == 0 && longer[sizeof state] == 0xFF);
    /* memory that was never set up */
    memset(state, 0xFF, sizeof state);
    CHECK(tecelume_number(ask_part(&usual, one, 0, 0)) == TECELUME_STATE_FAULT);
    memset(state, 0, sizeof state);
    CHECK(gets(&usual, one, 0, 125));
}

/* The reply needs just its length of room, and 17 bytes do for each. */
void dialog_of_an_allocatee(void)
{
    struct setting s = usual;
    begin();
    s.room = 1 + FIRST;
    CHECK(confirms(ask_part(&s, one, 0, 0), one, FIRST, 0));
    s.room = 1 + SECOND;
    CHECK(confirms(ask_part(&s, one, FIRST, 0), one, SECOND, 0));
    s.room = TECELUME_REPLY_SIZE;
    CHECK(confirms(ask_part(&s, one, SECOND, 0), one, WHOLE, 125));
}

/* Whatever it prefers, is marked or is the own ID meanwhile. */
void same_node_id_again(void)
{
    struct setting s = usual;
    begin();
    CHECK(gets(&s, one, 50, 50) && gets(&s, other, 50, 51));
    CHECK(gets(&s, one, 7, 50));
    tecelume_mark(s.marks, 50);
    CHECK(gets(&s, one, 7, 50));
    s.own = 51;
    CHECK(gets(&s, other, 7, 51) && tecelume_allocations(state) == 2);
}

void which_node_id(void)
{
    static const uint32_t highest[] = {0, 125, 126, 127};
    struct setting s = usual;
    for (size_t i = 0; i < sizeof highest / sizeof highest[0]; i++) {
        begin();
        CHECK(gets(&usual, one, highest[i], 125) && gets(&usual, other, highest[i], 124));
    }
    begin();
    CHECK(gets(&s, one, 10, 10) && gets(&s, other, 10, 11));
    begin();
    tecelume_mark(s.marks, 124);
    s.own = 123;
    CHECK(gets(&s, one, 123, 125) && gets(&s, other, 123, 122) && gets(&s, third, 1, 1));
}

void marks_are_given_anew(void)
{
    struct setting s = usual;
    begin();
    tecelume_mark(s.marks, 125);
    CHECK(gets(&s, one, 125, 124) && gets(&usual, other, 125, 125));
}

/* With all others marked an ID is the only free one; 0, 126 and above never are. */
void only_one_unmarked(void)
{
    static const uint32_t unmarked[] = {0, 1, 2, 31, 32, 63, 64, 65, 95, 96, 124, 125, 126, 127, 128};
    for (size_t i = 0; i < sizeof unmarked / sizeof unmarked[0]; i++) {
        struct setting s = usual;
        s.own = OTHER_OWN;
        begin();
        for (uint32_t node_id = 0; node_id < 130; node_id++)
            if (node_id != unmarked[i])
                tecelume_mark(s.marks, node_id);
        ask_twice(&s, one);
        tecelume_result last = ask_part(&s, one, SECOND, 60);
        if (unmarked[i] >= 1 && unmarked[i] <= 125)
            CHECK(confirms(last, one, WHOLE, unmarked[i]));
        else
            CHECK(tecelume_number(last) == TECELUME_NONE_FREE);
    }
}

void next_message_in_time(void)
{
    struct setting s = usual;
    begin();
    s.time = 1;
    CHECK(confirms(ask_part(&s, one, 0, 0), one, FIRST, 0));
    s.time += HALF_SECOND;
    CHECK(confirms(ask_part(&s, one, FIRST, 0), one, SECOND, 0));
    s.time += HALF_SECOND;
    CHECK(confirms(ask_part(&s, one, SECOND, 0), one, WHOLE, 125));
    ask_twice(&s, other);
    s.time += HALF_SECOND + 1;
    CHECK(is_ignored(ask_part(&s, other, SECOND, 0)));
    CHECK(gets(&s, other, 0, 124));
    /* a clock that runs back */
    ask_twice(&s, third);
    s.time = 0;
    CHECK(confirms(ask_part(&s, third, SECOND, 0), third, WHOLE, 123));
}

void one_node_at_a_time(void)
{
    struct setting s = usual;
    begin();
    s.time = 1;
    ask_twice(&s, one);
    s.time += HALF_SECOND;
    CHECK(is_ignored(ask_part(&s, third, 0, 0)));
    CHECK(confirms(ask_part(&s, one, SECOND, 0), one, WHOLE, 125));
    ask_twice(&s, other);
    s.time += HALF_SECOND + 1;
    CHECK(gets(&s, third, 0, 124));
}

void copy_of_a_message(void)
{
    begin();
    for (size_t from = 0; from < WHOLE; from += FIRST) {
        CHECK(tecelume_reply_length(ask_part(&usual, one, from, 0)) > 0);
        CHECK(is_ignored(ask_part(&usual, one, from, 0)));
    }
    CHECK(gets(&usual, one, 0, 125));
}

/* Of a named source, of a length that no allocatee sends, out of turn; ask checks what they leave. None needs room. */
void ignored_messages(void)
{
    static const uint8_t payload[1 + WHOLE] = {0};
    struct setting s = usual, named = usual;
    s.room = 0;
    begin();
    CHECK(is_ignored(ask_part(&s, one, FIRST, 0)) && is_ignored(ask_part(&s, one, SECOND, 0)));
    ask_twice(&usual, one);
    named.source = 9;
    CHECK(is_ignored(ask_part(&named, one, SECOND, 0)));
    named.source = 256;
    named.time = 10 * HALF_SECOND;
    CHECK(is_ignored(ask_part(&named, one, SECOND, 0)));
    for (size_t length = 0; length <= WHOLE; length++)
        if (length != WHOLE - SECOND)
            CHECK(is_ignored(ask(&s, payload, 1 + length)));
    CHECK(confirms(ask_part(&usual, one, SECOND, 0), one, WHOLE, 125));
}

/* The gathered bytes are dropped, so that a first message is taken; a node in the table gets its ID all the same. */
void no_node_id_free(void)
{
    struct setting s = usual;
    begin();
    CHECK(gets(&s, one, 0, 125));
    s.marks[0] = s.marks[1] = UINT64_MAX;
    ask_twice(&s, other);
    CHECK(tecelume_number(ask_part(&s, other, SECOND, 3)) == TECELUME_NONE_FREE);
    CHECK(is_ignored(ask_part(&s, other, SECOND, 3)));
    CHECK(gets(&s, one, 0, 125));
    CHECK(gets(&usual, other, 3, 3));
}

/* Each number of a refusal, where the ones after it apply too; ask checks what it leaves. */
void refused_allocations(void)
{
    static const uint8_t payload[2 + WHOLE] = {0};
    struct setting s = usual;
    begin();
    ask_twice(&s, one);
    s.room = WHOLE;
    s.own = 0;
    CHECK(tecelume_number(ask(&s, payload, 0)) == TECELUME_SETUP_REFUSED);
    s.own = 128;
    CHECK(tecelume_number(ask(&s, payload, sizeof payload)) == TECELUME_SETUP_REFUSED);
    s.own = OWN + 256;
    CHECK(tecelume_number(ask_part(&s, one, SECOND, 0)) == TECELUME_SETUP_REFUSED);
    s.own = OWN;
    CHECK(tecelume_number(ask(&s, payload, 0)) == TECELUME_PAYLOAD_ENDS);
    CHECK(tecelume_number(ask(&s, payload, sizeof payload)) == TECELUME_TOO_MANY);
    s.source = 9;
    CHECK(tecelume_number(ask(&s, payload, 0)) == TECELUME_PAYLOAD_ENDS);
    CHECK(tecelume_number(ask(&s, payload, sizeof payload)) == TECELUME_TOO_MANY);
    s.source = 0;
    CHECK(tecelume_number(ask_part(&s, one, SECOND, 0)) == TECELUME_OUTPUT_TOO_SMALL);
    CHECK(tecelume_number(ask_part(&s, one, SECOND, 0)) == TECELUME_OUTPUT_TOO_SMALL);
    s.room = 0;
    s.marks[0] = s.marks[1] = UINT64_MAX;
    CHECK(tecelume_number(ask_part(&s, one, SECOND, 0)) == TECELUME_NONE_FREE);
    s.own = 0;
    state[GATHERED] = WHOLE;
    CHECK(tecelume_number(ask_part(&s, one, SECOND, 0)) == TECELUME_STATE_FAULT);
}

/* A copy that was taken with the last reply, used at an earlier time. */
void allocator_kept(void)
{
    static const uint8_t payload[1] = {0};
    static uint8_t kept[sizeof state];
    struct setting s = usual, look = usual;
    look.source = OWN;
    look.room = 0;
    begin();
    s.time = 100 * HALF_SECOND;
    CHECK(gets(&s, one, 20, 20));
    memcpy(kept, state, sizeof state);
    begin();
    memcpy(state, kept, sizeof state);
    CHECK(is_ignored(ask(&look, payload, sizeof payload)) && memcmp(state, kept, sizeof state) == 0);
    CHECK(gets(&usual, other, 20, 21) && gets(&usual, one, 0, 20));
    state[ENTRIES] = TECELUME_ALLOCATIONS_MAX + 1;
    CHECK(tecelume_number(ask(&look, payload, sizeof payload)) == TECELUME_STATE_FAULT);
}

/* Entries come in the order of their unique IDs as numbers, low byte first; a new one moves others. */
void table_of_an_allocator(void)
{
    static const struct {
        const uint8_t *unique_id;
        uint32_t node_id;
    } entries[] = {{third, 125}, {one, 123}, {other, 124}};
    begin();
    CHECK(gets(&usual, third, 0, 125) && gets(&usual, other, 0, 124) && gets(&usual, one, 0, 123));
    CHECK(tecelume_allocations(state) == 3);
    for (size_t i = 0; i < 3; i++) {
        CHECK(memcmp(tecelume_allocation_unique_id(state, i), entries[i].unique_id, WHOLE) == 0);
        CHECK(tecelume_allocation_node_id(state, i) == entries[i].node_id);
    }
}

/* The faults that answer 20 (RULES 16.10); and a value in range, which is not noticed. */
void allocator_faults(void)
{
    static const struct {
        size_t at;
        uint8_t value;
    } values[] = {{GATHERED, WHOLE}, {ENTRIES, 126}, {TABLE + WHOLE, 0}, {TABLE + WHOLE, 126}, {TABLE + WHOLE, 124}};
    begin();
    CHECK(gets(&usual, one, 0, 125) && gets(&usual, other, 0, 124));
    for (size_t i = 0; i < sizeof values / sizeof values[0]; i++) {
        uint8_t good = state[values[i].at];
        state[values[i].at] = values[i].value;
        CHECK(tecelume_number(ask_part(&usual, one, 0, 0)) == TECELUME_STATE_FAULT);
        state[values[i].at] = good;
    }
    memcpy(state + TABLE, other, WHOLE);
    CHECK(tecelume_number(ask_part(&usual, one, 0, 0)) == TECELUME_STATE_FAULT);
    memcpy(state + TABLE + ENTRY, one, WHOLE);
    CHECK(tecelume_number(ask_part(&usual, one, 0, 0)) == TECELUME_STATE_FAULT);
    memcpy(state + TABLE, one, WHOLE);
    memcpy(state + TABLE + ENTRY, other, WHOLE);
    state[TABLE + WHOLE] = 99;
    CHECK(gets(&usual, one, 0, 99));
}
