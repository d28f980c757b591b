#include "relay.h"

#include <string.h>

enum { START = 0x80, END = 0x40, TOGGLE = 0x20, TRANSFER_ID = 31, PER_FRAME = 7, CHECKSUM = 2 };
enum { OLD_AGE = 2000000 }; /* microseconds after its start a receiver gives a transfer up, and so does the relay */

static unsigned tail(const struct frame *f)
{
    return f->data[f->length - 1];
}

/* Without the priority, which is no part of a stream. */
static uint32_t stream(const struct frame *f)
{
    return f->id & 0xFFFFFF;
}

static bool is_response(const struct relay *r, const struct frame *f)
{
    return f->length > 0 && (f->id >> 7 & 1) == 1 && (f->id >> 15 & 1) == 0 && (f->id >> 16 & 255) == r->service;
}

/* The place of the frame's stream, NULL if none is held. */
static struct held *find(struct relay *r, const struct frame *f)
{
    for (struct held *h = r->held; h < r->held + RELAY_TRANSFERS; h++)
        if (h->count > 0 && stream(h->frames) == stream(f))
            return h;
    return NULL;
}

static bool is_old(const struct held *h, uint64_t now)
{
    return now > h->frames[0].time && now - h->frames[0].time > OLD_AGE;
}

/* An empty place, or one whose transfer is old; NULL if there is none. */
static struct held *room(struct relay *r, uint64_t now)
{
    for (struct held *h = r->held; h < r->held + RELAY_TRANSFERS; h++)
        if (h->count == 0 || is_old(h, now))
            return h;
    return NULL;
}

static void drop(struct relay *r, const struct frame *f, const char *why)
{
    r->owner.dropped(r->owner.self, f, why);
}

/* ---- the end has come ---- */

/* A byte of what the frames carry together: the checksum, then the payload. */
static uint8_t *carried(struct held *h, size_t index)
{
    return &h->frames[index / PER_FRAME].data[index % PER_FRAME];
}

/* Rewrites the byte and corrects the checksum; false if the payload does not have that byte, or is too long. */
static bool rewrite(struct relay *r, struct held *h)
{
    struct rewritten w;
    size_t all = (h->count - 1) * PER_FRAME + h->frames[h->count - 1].length - 1;
    if (all <= CHECKSUM + r->at)
        return false;
    uint8_t *byte = carried(h, CHECKSUM + r->at), *low = carried(h, 0), *high = carried(h, 1);
    w.source = h->frames[0].id & 127;
    w.transfer_id = tail(h->frames) & TRANSFER_ID;
    w.length = all - CHECKSUM;
    w.old_byte = *byte;
    w.new_byte = r->rewrite(*byte);
    w.old_checksum = (uint32_t)(*low | *high << 8);
    tecelume_result result = tecelume_patch(w.old_checksum, w.old_byte, w.new_byte, w.length - 1 - r->at);
    if (tecelume_number(result) != TECELUME_SUCCESS)
        return false;
    w.new_checksum = tecelume_checksum(result);
    *byte = w.new_byte;
    *low = (uint8_t)(w.new_checksum & 255);
    *high = (uint8_t)(w.new_checksum >> 8);
    r->owner.told(r->owner.self, &w);
    return true;
}

/* Sends what is held, now. What cannot be rewritten must not get through as it was. */
static void release(struct relay *r, struct held *h)
{
    uint64_t now = h->frames[h->count - 1].time;
    bool whole = rewrite(r, h);
    if (!whole)
        drop(r, h->frames, "no such byte");
    for (size_t i = 0; whole && i < h->count; i++) {
        h->frames[i].time = now;
        r->owner.sent(r->owner.self, &h->frames[i]);
    }
    h->count = 0;
}

/* ---- frames ---- */

static void hold(struct relay *r, struct held *h, const struct frame *f)
{
    if (h->count == TECELUME_FRAMES_MAX) {
        drop(r, f, "too long");
        h->count = 0;
        return;
    }
    h->frames[h->count++] = *f;
    if (tail(f) & END)
        release(r, h);
}

/* A start drops what is held of its stream, unless it repeats the one that is held. */
static void start(struct relay *r, const struct frame *f)
{
    struct held *h = find(r, f);
    if (h != NULL && tail(h->frames) == tail(f) && !is_old(h, f->time)) {
        drop(r, f, "a repeat");
        return;
    }
    if (h != NULL) {
        drop(r, h->frames, "cut short");
        h->count = 0;
    } else {
        h = room(r, f->time);
    }
    if (h == NULL) {
        drop(r, f, "no room");
        return;
    }
    h->count = 0;
    hold(r, h, f);
}

static void follow(struct relay *r, const struct frame *f)
{
    struct held *h = find(r, f);
    if (h == NULL || ((tail(h->frames) ^ tail(f)) & TRANSFER_ID) != 0 || is_old(h, f->time))
        drop(r, f, "its start is not held");
    else if ((tail(&h->frames[h->count - 1]) & TOGGLE) == (tail(f) & TOGGLE))
        drop(r, f, "a repeat, or one before it was lost");
    else
        hold(r, h, f);
}

/* A transfer of one frame has no checksum. */
static void single(struct relay *r, const struct frame *f)
{
    struct frame now = *f;
    if (r->at + 1 >= now.length) {
        drop(r, f, "no such byte");
        return;
    }
    now.data[r->at] = r->rewrite(now.data[r->at]);
    r->owner.sent(r->owner.self, &now);
}

/* Whether every receiver refuses the frame for its tail byte: a start with toggle 1; no end and not full; an end with nothing else. */
static bool is_bad(const struct frame *f)
{
    bool begins = (tail(f) & START) != 0, ends = (tail(f) & END) != 0;
    return (begins && (tail(f) & TOGGLE) != 0) || (!ends && f->length <= PER_FRAME) || (ends && !begins && f->length == 1);
}

void relay_take(struct relay *r, const struct frame *f)
{
    if (!is_response(r, f))
        r->owner.sent(r->owner.self, f);
    else if (is_bad(f))
        drop(r, f, "the tail byte does not fit it");
    else if ((tail(f) & START) && (tail(f) & END))
        single(r, f);
    else if (tail(f) & START)
        start(r, f);
    else
        follow(r, f);
}

void relay_setup(struct relay *r, uint32_t service, size_t at, uint8_t (*rewrite)(uint8_t byte), const struct relay_owner *owner)
{
    memset(r, 0, sizeof *r);
    r->owner = *owner;
    r->service = service;
    r->at = at;
    r->rewrite = rewrite;
}
