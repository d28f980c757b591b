/* Random calls of tecelume_signatures on buffers that show it when a call leaves them (lent.h): definitions, whole and damaged, with room and
 * without. Each call is made twice, placed anew, and checked by what include/tecelume.h promises of every answer.
 *
 *     texts [SEED [CALLS]] */
#include <inttypes.h>
#include <signal.h>
#include <stdio.h>
#include <stdlib.h>
#include <string.h>
#include <unistd.h>

#include "buffers.h"
#include "tecelume.h"

enum { CALLS = 100000, SHORT = 20000, NUMBERS = 44, SOURCE_MAX = 18000, OUT_MAX = 8000, EXTRA = 3, DEFINITIONS = 10 };
enum { LENGTHS_MAX = DEFINITIONS * TECELUME_LENGTHS_SIZE + EXTRA, RECORDS_MAX = DEFINITIONS * TECELUME_SIGNED_SIZE + EXTRA };

static uint64_t seed = 1, calls, seen[256];

/* What is given, and what the call may write. */
struct call {
    struct buffer source, lengths, out, records;
};

static void fail(const struct call *c, const char *what)
{
    printf("seed %" PRIu64 ", call %" PRIu64 ", with %zu, %zu, %zu and %zu bytes lent: %s\n", seed, calls, c->source.length,
           c->lengths.length, c->out.length, c->records.length, what);
    exit(1);
}

/* Makes the call on buffers placed at random; `after` gets what it left. */
static tecelume_result make_placed(const struct call *c, struct call *after)
{
    struct lent source = lend_buffer(&c->source), lengths = lend_buffer(&c->lengths);
    struct lent out = lend_buffer(&c->out), records = lend_buffer(&c->records);
    tecelume_result result = tecelume_signatures(source.bytes, source.length, lengths.bytes, lengths.length, out.bytes, out.length,
                                                 records.bytes, records.length);
    if (!guards_stay(&source) || !guards_stay(&lengths) || !guards_stay(&out) || !guards_stay(&records))
        fail(c, "bytes beside a lent buffer were written");
    take_back(&source, after->source.bytes);
    take_back(&lengths, after->lengths.bytes);
    take_back(&out, after->out.bytes);
    take_back(&records, after->records.bytes);
    return result;
}

static void judge(const struct call *c, const struct call *after, tecelume_result result)
{
    static const uint32_t numbers[] = {0, 8, 40, 41, 42, 43};
    uint32_t number = tecelume_number(result);
    size_t count = c->lengths.length / TECELUME_LENGTHS_SIZE, forms = 0, written = 0;
    bool known = false;
    for (size_t i = 0; i < sizeof numbers / sizeof numbers[0]; i++)
        known |= number == numbers[i];
    if (!known)
        fail(c, "a number that this call does not answer");
    if (number == TECELUME_NOT_IN_GRAMMAR ? tecelume_definition(result) < 1 || tecelume_definition(result) > count || result.word >> 32 != 0
                                          : result.word != number)
        fail(c, "a word that cannot be");
    if (number == TECELUME_SUCCESS)
        for (; written < count * TECELUME_SIGNED_SIZE; written += TECELUME_SIGNED_SIZE)
            forms += tecelume_form_length(after->records.bytes + written);
    if (written > c->records.length || forms > c->out.length)
        fail(c, "more was written than was lent");
    if (!alike(&c->out, &after->out, forms, c->out.length) || !alike(&c->records, &after->records, written, c->records.length))
        fail(c, "bytes that must stay were written");
    if (!alike(&c->source, &after->source, 0, c->source.length) || !alike(&c->lengths, &after->lengths, 0, c->lengths.length))
        fail(c, "a const input was written");
    seen[number]++;
}

static void run(const struct call *c)
{
    static struct call once, again;
    calls++;
    tecelume_result result = make_placed(c, &once);
    if (make_placed(c, &again).word != result.word || !alike(&once.out, &again.out, 0, c->out.length) ||
        !alike(&once.records, &again.records, 0, c->records.length))
        fail(c, "the same call twice differs");
    judge(c, &once, result);
}

/* ---- what is given ---- */

static const char *const lines[] = {
    "@union", "---", "uint8 x#", "bool[<=5] y", "B[<3] b", "a.C c", "void7", "int8 X = -128", "float64 F = 1.5e-3", "uint8 C = '\\n'", "",
    "# comment", "\t uint3[0x10] z ", "saturated bool q", "truncated int64[99999999999999999999999] w", "A self", "uint8 9",
};
static const char *const names[] = {"a.A", "a.B", "a.C", "a.D", "a.b.E", "a.F", "a.G", "a.H", "a.I", "a"};

static void put(struct buffer *b, const char *text, size_t length)
{
    memcpy(b->bytes + b->length, text, length);
    b->length += length;
}

/* A line from the list, perhaps with a byte changed. */
static void put_line(struct buffer *b)
{
    const char *line = lines[below(sizeof lines / sizeof lines[0])];
    size_t from = b->length, length = strlen(line);
    put(b, line, length);
    if (length > 0 && below(16) == 0)
        b->bytes[from + below(length)] = (uint8_t)next_random();
    put(b, below(4) == 0 ? "\r" : "\n", 1);
}

static void choose(struct call *c)
{
    size_t count = below(40) == 0 ? DEFINITIONS - 1 : below(5);
    uint8_t *length = c->lengths.bytes;
    c->source.length = 0;
    for (size_t i = 0; i < count; i++) {
        const char *name = names[below(30) == 0 ? below(DEFINITIONS) : i];
        put(&c->source, name, strlen(name));
        size_t from = c->source.length;
        for (size_t n = below(5); n > 0; n--)
            put_line(&c->source);
        if (below(60) == 0)
            while (c->source.length - from <= TECELUME_TEXT_MAX && c->source.length < SOURCE_MAX - 100)
                put(&c->source, "# a comment that makes the text too long\n", 41);
        length = tecelume_lengths(length, strlen(name), c->source.length - from);
    }
    if (below(30) == 0 && c->source.length > 0)
        c->source.length--;
    c->lengths.length = (size_t)(length - c->lengths.bytes) + below(EXTRA);
    c->out.length = below(3) == 0 ? below(200) : OUT_MAX;
    c->records.length = below(8) == 0 ? below(RECORDS_MAX) : RECORDS_MAX;
}

/* Nothing is left to save, so that what a handler may not do does no harm. */
static void on_fault(int signal_number)
{
    (void)signal_number;
    printf("seed %" PRIu64 ", call %" PRIu64 ": memory was touched that no one may touch\n", seed, calls);
    fflush(stdout);
    _exit(1);
}

int main(int count, char **words)
{
    static struct call c;
    bool all = true;
    signal(SIGSEGV, on_fault);
    if (count > 1)
        seed = strtoull(words[1], NULL, 10);
    uint64_t most = count > 2 ? strtoull(words[2], NULL, 10) : CALLS;
    random_state = seed;
    for (size_t i = 0; i < OUT_MAX; i++)
        c.out.bytes[i] = (uint8_t)next_random();
    while (calls < most) {
        choose(&c);
        run(&c);
    }
    printf("seed %" PRIu64 ": %" PRIu64 " calls of signatures, each made twice;", seed, calls);
    for (int number = 0; number < NUMBERS; number++)
        if (number == 0 || number == 8 || number >= 40) {
            printf(" %d: %" PRIu64, number, seen[number]);
            all &= seen[number] > 0;
        }
    printf("\n");
    if (all || most < SHORT)
        return 0;
    printf("an answer was never seen\n");
    return 1;
}
