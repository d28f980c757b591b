/* Compares the C entries of messages, on rows and through the header's structs, with the second implementation: reads its questions and answers,
 * which the program `rows` writes (tests/src/bin/rows), and stops with status 1 at the first difference in an answer or in any byte of any lent
 * buffer.
 *
 *     messages [FILE]    from standard input, if no file is given
 *
 * Each call is made on buffers placed anew (lent.h). */
#include <inttypes.h>
#include <stdio.h>
#include <stdlib.h>
#include <string.h>

#include "lent.h"
#include "messages.h"

enum { BYTES_MAX = 1024, ROOM_MAX = 600, SPARE = 0x3C };

static FILE *questions;
static uint32_t calls[2], structs[2];
static const struct message_type *type;

static void fail(const char *what)
{
    printf("%s, after %" PRIu32 " read and %" PRIu32 " written: %s\n", type == NULL ? "-" : type->name, calls[0], calls[1], what);
    exit(1);
}

/* ---- questions ---- */

static void get_bytes(uint8_t *bytes, size_t count)
{
    if (fread(bytes, 1, count, questions) != count)
        fail("the questions end too early");
}

static uint64_t get(size_t bytes)
{
    uint8_t low_first[8];
    uint64_t number = 0;
    get_bytes(low_first, bytes);
    for (size_t i = bytes; i-- > 0;)
        number = number << 8 | low_first[i];
    return number;
}

/* At most so many of so many bytes each. */
static size_t get_count(size_t bytes, size_t most)
{
    size_t count = (size_t)get(bytes);
    if (count > most)
        fail("a question that is too long");
    return count;
}

static void get_row(uint64_t *row, size_t count)
{
    for (size_t i = 0; i < count; i++)
        row[i] = get(8);
}

/* ---- lent buffers ---- */

static unsigned next_choice(void)
{
    static uint32_t state = 1;
    state = state * 1664525 + 1013904223;
    return state >> 16;
}

static struct lent lend_bytes(const uint8_t *bytes, size_t length)
{
    unsigned choice = next_choice();
    return lend((enum placement)(choice % PLACEMENTS), bytes, length, choice / PLACEMENTS % 256);
}

/* Numbers of 64 bits, aligned as C aligns them. */
static struct lent lend_row(const uint64_t *row, size_t count)
{
    unsigned choice = next_choice(), aligned = choice / PLACEMENTS % 2 * 8;
    return lend((enum placement)(choice % PLACEMENTS), (const uint8_t *)row, 8 * count, count == 0 ? choice / PLACEMENTS % 2 : aligned);
}

static uint64_t *row_of(const struct lent *l)
{
    return (uint64_t *)(void *)l->bytes;
}

static void back(struct lent *l, void *content)
{
    if (!guards_stay(l))
        fail("bytes beside a lent buffer were written");
    take_back(l, (uint8_t *)content);
}

/* Takes back what is not to be written. */
static void back_unchanged(struct lent *l, const void *content)
{
    static uint8_t after[BYTES_MAX];
    size_t length = l->length;
    back(l, after);
    if (length > 0 && memcmp(after, content, length) != 0)
        fail("a const input was written");
}

/* ---- reading ---- */

static void compare_struct_reading(const uint8_t *payload, size_t length, uint32_t number, const uint64_t *expected)
{
    uint64_t row[ROW_MAX] = {0};
    struct lent lent = lend_bytes(payload, length);
    uint32_t answered = type->decode_struct(lent.bytes, lent.length, row);
    back_unchanged(&lent, payload);
    if (answered != number)
        fail("the struct's number differs, or the struct is touched by a refusal");
    if (number == TECELUME_SUCCESS && memcmp(row, expected, 8 * type->numbers) != 0)
        fail("the struct differs");
    structs[0]++;
}

static void compare_reading(void)
{
    static uint8_t payload[BYTES_MAX];
    uint64_t row[ROW_MAX], expected[ROW_MAX];
    size_t length = get_count(2, sizeof payload), places;
    uint32_t number, answered;
    get_bytes(payload, length);
    places = get_count(1, ROW_MAX);
    number = (uint32_t)get(4);
    for (size_t i = 0; i < ROW_MAX; i++)
        row[i] = expected[i] = (uint64_t)0x0101010101010101 * SPARE + i;
    if (number == TECELUME_SUCCESS)
        get_row(expected, type->numbers);
    struct lent lent = lend_bytes(payload, length), fields = lend_row(row, places);
    answered = type->decode(lent.bytes, lent.length, row_of(&fields), places);
    back_unchanged(&lent, payload);
    back(&fields, row);
    if (answered != number)
        fail("the number differs");
    if (memcmp(row, expected, sizeof row) != 0)
        fail("the row differs");
    if (places >= type->numbers)
        compare_struct_reading(payload, length, number, expected);
    calls[0]++;
}

/* ---- writing ---- */

/* A question to write, and its answer. */
struct writing {
    uint64_t row[ROW_MAX];
    size_t numbers, room;
    uint8_t bytes[LISTS_MAX][BYTES_MAX];
    tecelume_bytes lists[LISTS_MAX];
    uint64_t word;
    uint8_t out[ROOM_MAX];
};

/* A struct holds what the row says, or the nearest to it; of what is no float it holds nothing. */
static bool is_in_struct(const struct writing *w)
{
    bool is = w->numbers >= type->numbers;
    for (size_t i = 0; is && i < type->floats; i++)
        is = w->row[i] <= UINT32_MAX;
    for (size_t i = 0; is && i < type->tags; i++)
        is = w->row[type->tag_at[i]] != TECELUME_PARAM_REAL_VALUE || w->row[type->tag_at[i] + 1] <= UINT32_MAX;
    return is;
}

static void compare_writing_by(const struct writing *w, bool by_struct)
{
    static uint8_t out[ROOM_MAX];
    tecelume_bytes lists[LISTS_MAX];
    struct lent lent[LISTS_MAX], fields = lend_row(w->row, w->numbers), room;
    uint64_t word;
    memset(out, SPARE, sizeof out);
    room = lend_bytes(out, w->room);
    for (size_t i = 0; i < type->lists; i++) {
        lent[i] = lend_bytes(w->lists[i].at, w->lists[i].len);
        lists[i].at = lent[i].bytes;
        lists[i].len = lent[i].length;
    }
    word = by_struct ? type->encode_struct(row_of(&fields), lists, room.bytes, room.length)
                     : type->encode(row_of(&fields), w->numbers, lists, room.bytes, room.length);
    back_unchanged(&fields, w->row);
    for (size_t i = 0; i < type->lists; i++)
        back_unchanged(&lent[i], w->lists[i].at);
    back(&room, out);
    if (word != w->word)
        fail(by_struct ? "the word of a struct differs" : "the word differs");
    if (memcmp(out, w->out, sizeof out) != 0)
        fail(by_struct ? "the message of a struct differs, or bytes that must stay" : "the message differs, or bytes that must stay");
}

static void compare_writing(void)
{
    static struct writing w;
    size_t lists;
    w.numbers = get_count(1, ROW_MAX);
    get_row(w.row, w.numbers);
    lists = get_count(1, LISTS_MAX);
    if (lists != type->lists)
        fail("a question with other lists");
    for (size_t i = 0; i < lists; i++) {
        w.lists[i].at = w.bytes[i];
        w.lists[i].len = get_count(2, BYTES_MAX);
        get_bytes(w.bytes[i], w.lists[i].len);
    }
    w.room = get_count(2, ROOM_MAX);
    w.word = get(8);
    memset(w.out, SPARE, sizeof w.out);
    if ((w.word & 255) == TECELUME_SUCCESS)
        get_bytes(w.out, w.word >> 8 < ROOM_MAX ? (size_t)(w.word >> 8) : ROOM_MAX);
    compare_writing_by(&w, false);
    if (is_in_struct(&w)) {
        compare_writing_by(&w, true);
        structs[1]++;
    }
    calls[1]++;
}

#ifdef QUESTIONS /* the file, on machines without arguments */
int main(void)
{
    const char *name = QUESTIONS;
#else
int main(int count, char **words)
{
    const char *name = count > 1 ? words[1] : NULL;
#endif
    uint8_t way;
    questions = name == NULL ? stdin : fopen(name, "rb");
    if (questions == NULL) {
        printf("no %s\n", name);
        return 2;
    }
    while ((way = (uint8_t)get(1)) < 2) {
        type = &message_types[get_count(1, TYPES - 1)];
        if (way == 0)
            compare_reading();
        else
            compare_writing();
    }
    for (int i = 0; i < 2; i++)
        if (get(4) != calls[i])
            fail("questions were lost");
    printf("ALIKE: %" PRIu32 " calls read, %" PRIu32 " through structs; %" PRIu32 " wrote, %" PRIu32 " through structs\n", calls[0], structs[0],
           calls[1], structs[1]);
    return 0;
}
