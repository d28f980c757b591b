#include "baseline.h"

#include <string.h>

enum { TIMEOUT = 2000000, SWITCH_DELAY = 1000000 }; /* microseconds */

/* ---- the checksum ---- */

static uint16_t table[16];

static void fill_table(void)
{
    for (unsigned i = 0; i < 16; i++) {
        unsigned c = i << 12;
        for (int k = 0; k < 4; k++)
            c = (c & 0x8000) ? (c << 1) ^ 0x1021 : c << 1;
        table[i] = (uint16_t)c;
    }
}

static uint16_t crc_byte(uint16_t c, uint8_t byte)
{
#ifdef BOTH_AT_ONCE /* as the proved checksum does: neither entry waits for the other */
    unsigned x = c >> 8 ^ byte, high = x >> 4, low = x & 15;
    return (uint16_t)(c << 8 ^ table[high] << 4 ^ table[high ^ low]);
#endif
    c = (uint16_t)((c << 4) ^ table[(c >> 12) ^ (byte >> 4)]);
    return (uint16_t)((c << 4) ^ table[(c >> 12) ^ (byte & 15)]);
}

static uint16_t crc_bytes(uint16_t c, const uint8_t *bytes, size_t n)
{
    for (size_t i = 0; i < n; i++)
        c = crc_byte(c, bytes[i]);
    return c;
}

static uint16_t crc_signature(uint64_t signature)
{
    uint16_t c = 0xFFFF;
    for (int i = 0; i < 8; i++)
        c = crc_byte(c, (uint8_t)(signature >> (8 * i)));
    return c;
}

/* ---- the pool ---- */

static void fill_pool(struct baseline *r)
{
    r->unused = 0;
    for (baseline_link i = BASELINE_BLOCKS; i > 0; i--) {
        r->pool[i].next = r->unused;
        r->unused = i;
    }
}

static baseline_link get_block(struct baseline *r)
{
    baseline_link b = r->unused;
    if (b != 0)
        r->unused = r->pool[b].next;
    return b;
}

static void drop_payload(struct baseline *r, struct baseline_stream *s)
{
    while (s->chunks != 0) {
        baseline_link b = s->chunks;
        s->chunks = r->pool[b].chunk.next;
        r->pool[b].next = r->unused;
        r->unused = b;
    }
    s->length = 0;
}

/* ---- streams ---- */

static struct baseline_stream *find(struct baseline *r, uint32_t key)
{
    for (baseline_link i = r->streams; i != 0; i = r->pool[i].stream.next)
        if (r->pool[i].stream.key == key)
            return &r->pool[i].stream;
    return NULL;
}

/* The new stream expects the transfer that starts it. */
static struct baseline_stream *add(struct baseline *r, uint32_t key, uint8_t transfer_id, uint8_t interface_number, uint64_t time)
{
    baseline_link b = get_block(r);
    if (b == 0)
        return NULL;
    struct baseline_stream *s = &r->pool[b].stream;
    memset(s, 0, sizeof *s);
    s->key = key;
    s->expected = transfer_id;
    s->follows = interface_number;
    s->time = time;
    s->next = r->streams;
    r->streams = b;
    return s;
}

/* A new chunk after the last one, which may be none; NULL if the pool is empty. */
static struct baseline_chunk *grow(struct baseline *r, struct baseline_stream *s, struct baseline_chunk *last)
{
    baseline_link b = get_block(r);
    if (b == 0)
        return NULL;
    r->pool[b].chunk.next = 0;
    if (last == NULL)
        s->chunks = b;
    else
        last->next = b;
    return &r->pool[b].chunk;
}

static bool append(struct baseline *r, struct baseline_stream *s, const uint8_t *bytes, size_t n)
{
    struct baseline_chunk *last = NULL;
    for (baseline_link i = s->chunks; i != 0; i = last->next)
        last = &r->pool[i].chunk;
    size_t at = s->length % BASELINE_CHUNK;
    for (size_t i = 0; i < n; i++) {
        if (at == 0 && (last = grow(r, s, last)) == NULL)
            return false;
        last->bytes[at] = bytes[i];
        at = at + 1 == BASELINE_CHUNK ? 0 : at + 1;
    }
    s->length = (uint16_t)(s->length + n);
    return true;
}

static void next_transfer(struct baseline *r, struct baseline_stream *s)
{
    drop_payload(r, s);
    s->toggle = false;
    s->expected = (s->expected + 1) & 31;
}

/* ---- reception ---- */

/* A frame taken apart. */
struct part {
    struct baseline_route route;
    uint64_t time;
    uint64_t signature; /* of a start that is wanted */
    const uint8_t *bytes;
    size_t length;
    uint8_t transfer_id, interface_number;
    bool start, end, toggle;
};

static struct baseline_route route_of(uint32_t id)
{
    struct baseline_route w;
    w.priority = id >> 24 & 31;
    w.source = id & 127;
    if (id & 128) {
        w.kind = (id & 32768) ? BASELINE_REQUEST : BASELINE_RESPONSE;
        w.type_id = id >> 16 & 255;
        w.destination = id >> 8 & 127;
    } else {
        w.kind = BASELINE_MESSAGE;
        w.type_id = (uint16_t)(id >> 8 & (w.source == 0 ? 3 : 65535));
        w.destination = 0;
    }
    return w;
}

static uint32_t key_of(const struct baseline_route *w)
{
    return (uint32_t)w->kind << 30 | (uint32_t)w->type_id << 14 | (uint32_t)w->source << 7 | w->destination;
}

/* Only a start brings a new stream and asks whether it is wanted: what follows it finds the stream. */
static struct baseline_stream *stream_of(struct baseline *r, struct part *p)
{
    if (p->start && !r->accept(p->route.kind, p->route.type_id, &p->signature))
        return NULL;
    struct baseline_stream *s = find(r, key_of(&p->route));
    if (s == NULL && p->start)
        s = add(r, key_of(&p->route), p->transfer_id, p->interface_number, p->time);
    return s;
}

/* RULES 4.5 */
static bool restarts(const struct baseline_stream *s, const struct part *p)
{
    uint64_t age = p->time - s->time;
    bool other = p->interface_number == s->follows && ((s->expected - p->transfer_id) & 31) > 1;
    bool late = age > SWITCH_DELAY && ((p->transfer_id - s->expected) & 31) < 16;
    return age > TIMEOUT || (p->start && (other || late));
}

/* Whether the frame is the one that the stream waits for, after a restart where the transport asks for one. */
static bool expected(struct baseline *r, struct baseline_stream *s, const struct part *p)
{
    if (restarts(s, p)) {
        drop_payload(r, s);
        s->toggle = false;
        s->follows = p->interface_number;
        s->expected = p->transfer_id;
        if (!p->start) {
            s->expected = (s->expected + 1) & 31;
            return false;
        }
    }
    return p->interface_number == s->follows && p->toggle == s->toggle && p->transfer_id == s->expected;
}

static void hand_out_frame(struct baseline *r, const struct part *p)
{
    struct baseline_transfer t = {p->route, p->transfer_id, p->time, p->length, p->bytes, 0};
    r->handed_out(r, &t);
}

static void hand_out_chunks(struct baseline *r, const struct part *p, const struct baseline_stream *s)
{
    struct baseline_transfer t = {p->route, p->transfer_id, s->time, s->length, NULL, s->chunks};
    r->handed_out(r, &t);
}

/* A frame of a transfer of several: its bytes are kept and go into the checksum, but for the sent checksum in front. */
static void gather(struct baseline *r, struct baseline_stream *s, const struct part *p)
{
    const uint8_t *bytes = p->bytes;
    size_t n = p->length;
    if (p->start) {
        if (n < 2)
            return;
        drop_payload(r, s);
        s->sent = (uint16_t)(bytes[0] | bytes[1] << 8);
        s->crc = crc_signature(p->signature);
        bytes += 2;
        n -= 2;
    }
    s->crc = crc_bytes(s->crc, bytes, n);
    s->toggle = !s->toggle;
    if (!append(r, s, bytes, n)) {
        next_transfer(r, s);
    } else if (p->end) {
        if (s->crc == s->sent)
            hand_out_chunks(r, p, s);
        next_transfer(r, s);
    }
}

static void receive_part(struct baseline *r, struct part *p)
{
    bool single = p->start && p->end;
    if (p->route.source == 0) { /* anonymous: no stream, single frames only */
        if (single && r->accept(p->route.kind, p->route.type_id, &p->signature))
            hand_out_frame(r, p);
        return;
    }
    struct baseline_stream *s = stream_of(r, p);
    if (s == NULL || !expected(r, s, p))
        return;
    if (p->start)
        s->time = p->time;
    if (single) {
        hand_out_frame(r, p);
        next_transfer(r, s);
    } else {
        gather(r, s, p);
    }
}

void baseline_receive(struct baseline *r, uint32_t id, const uint8_t *frame, size_t length, uint8_t interface_number, uint64_t time)
{
    if (id >> 29 != 0 || length < 1 || length > 8)
        return;
    struct part p = {route_of(id), time, 0, frame, length - 1, 0, interface_number, false, false, false};
    if (p.route.kind != BASELINE_MESSAGE && p.route.destination != r->own)
        return;
    uint8_t tail = frame[length - 1];
    p.start = tail >> 7 & 1;
    p.end = tail >> 6 & 1;
    p.toggle = tail >> 5 & 1;
    p.transfer_id = tail & 31;
    receive_part(r, &p);
}

size_t baseline_copy(const struct baseline *r, const struct baseline_transfer *t, uint8_t *out)
{
    if (t->frame != NULL) {
        memcpy(out, t->frame, t->length);
        return t->length;
    }
    size_t done = 0;
    for (baseline_link i = t->chunks; i != 0; i = r->pool[i].chunk.next) {
        size_t left = t->length - done;
        size_t part = left < BASELINE_CHUNK ? left : BASELINE_CHUNK;
        memcpy(out + done, r->pool[i].chunk.bytes, part);
        done += part;
    }
    return done;
}

void baseline_init(struct baseline *r, uint8_t own, baseline_accept *accept, baseline_handed_out *handed_out, void *user)
{
    fill_table();
    fill_pool(r);
    r->streams = 0;
    r->accept = accept;
    r->handed_out = handed_out;
    r->user = user;
    r->own = own;
}

/* ---- sending ---- */

static struct baseline_entry *entry_of(struct baseline_sender *s, uint32_t key, uint64_t time)
{
    struct baseline_entry *e = s->entries, *end = s->entries + s->used;
    while (e < end && e->key != key)
        e++;
    if (e < end)
        return e;
    if (s->used < BASELINE_ENTRIES)
        s->used++;
    else
        for (e = s->entries; e < end && time - e->time < TIMEOUT; e++)
            ;
    if (e == s->entries + BASELINE_ENTRIES)
        return NULL;
    e->key = key;
    e->next = 0;
    return e;
}

static uint32_t id_of(const struct baseline_route *w)
{
    uint32_t id = (uint32_t)w->priority << 24 | w->source;
    if (w->kind == BASELINE_MESSAGE)
        return id | (uint32_t)w->type_id << 8;
    uint32_t request = w->kind == BASELINE_REQUEST;
    return id | (uint32_t)w->type_id << 16 | request << 15 | (uint32_t)w->destination << 8 | 128;
}

/* A record whose data begin with those that are there already; gives how many bytes of the payload it took. */
static size_t put_record(uint8_t *out, uint32_t id, size_t there, const uint8_t *payload, size_t length, uint8_t flags)
{
    uint8_t *at = out + 5 + there;
    size_t n = length < 7 - there ? length : 7 - there;
    for (int i = 0; i < 4; i++)
        out[i] = (uint8_t)(id >> (8 * i));
    out[4] = (uint8_t)(there + n + 1);
    for (size_t i = 0; i < n; i++)
        *at++ = payload[i];
    *at++ = (uint8_t)(flags | (n == length ? 64 : 0));
    while (at < out + BASELINE_RECORD)
        *at++ = 0;
    return n;
}

static size_t put_records(uint8_t *out, uint32_t id, uint8_t transfer_id, uint64_t signature, const uint8_t *payload, size_t length)
{
    if (length <= 7) {
        put_record(out, id, 0, payload, length, 128 | transfer_id);
        return 1;
    }
    uint16_t c = crc_bytes(crc_signature(signature), payload, length);
    out[5] = (uint8_t)c;
    out[6] = (uint8_t)(c >> 8);
    size_t done = put_record(out, id, 2, payload, length, 128 | transfer_id), n = 1;
    for (; done < length; n++) {
        out += BASELINE_RECORD;
        done += put_record(out, id, 0, payload + done, length - done, (uint8_t)((n & 1) << 5 | transfer_id));
    }
    return n;
}

size_t baseline_send(struct baseline_sender *s, const struct baseline_route *route, uint8_t transfer_id, uint64_t signature,
                     const uint8_t *payload, size_t length, uint64_t time, uint8_t *out)
{
    if (route->kind != BASELINE_RESPONSE) {
        struct baseline_route to = *route;
        to.source = 0;
        struct baseline_entry *e = entry_of(s, key_of(&to), time);
        if (e == NULL)
            return 0;
        transfer_id = e->next;
        e->next = (e->next + 1) & 31;
        e->time = time;
    }
    return put_records(out, id_of(route), transfer_id, signature, payload, length);
}

void baseline_sender_init(struct baseline_sender *s)
{
    fill_table();
    s->used = 0;
}
