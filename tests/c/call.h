/* A call of a C entry, made twice on buffers that show it when it leaves them (lent.h), and checked by what include/tecelume.h promises
 * of every answer. */
#ifndef CALL_H
#define CALL_H

#include "lent.h"
#include "tecelume.h"

/* ---- randomness: the same seed gives the same calls ---- */

void random_start(uint64_t seed);
uint64_t next_random(void);
uint32_t below(uint32_t n); /* 0 to n - 1 */
bool once_in(uint32_t n);
void fill(uint8_t *bytes, size_t n);

/* ---- a call ---- */

enum entry { SETUP, RECEIVE, MAP_SETUP, SEND, ALLOCATOR_SETUP, ALLOCATE, CAPTURE, UNCAPTURE, JUDGE, ENTRIES };

struct buffer {
    uint8_t bytes[LENT_MAX];
    size_t length;
};

/* `state` is a receiver's, a map, an allocator's, a judge's subscriptions or nothing, `input` the subscriptions, the frame, the payload, the log
 * or the capture. */
struct call {
    enum entry entry;
    uint32_t own, id, interface_number, transfer_type, type_id, destination, priority, transfer_id, discriminator, source;
    uint64_t signature, marks[2], time;
    struct buffer state, input, out;
};

/* Makes the call twice and checks it; the buffers then hold what it left. A setup's number is the whole result. */
tecelume_result run(struct call *c);

/* Says what is wrong with the call and ends the program. */
void fail(const struct call *c, const char *what);

uint64_t calls_made(void);

/* Prints how often each answer was seen; false if one never was. */
bool show_answers(void);

#endif
