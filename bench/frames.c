#include "frames.h"

#include <stdbool.h>
#include <string.h>

const struct type types[TYPES] = {
    {TECELUME_KIND_MESSAGE, 341}, {TECELUME_KIND_MESSAGE, 1}, {TECELUME_KIND_MESSAGE, 16370}, {TECELUME_KIND_MESSAGE, 16383},
    {TECELUME_KIND_SERVICE, 1},
};

uint8_t payload_byte(unsigned source, unsigned turn, unsigned i)
{
    return (uint8_t)(source * 89 + turn * 57 + i * 7 + i / 3);
}

static unsigned crc(unsigned c, uint8_t byte)
{
    c ^= (unsigned)byte << 8;
    for (int k = 0; k < 8; k++)
        c = ((c & 0x8000) ? (c << 1) ^ 0x1021 : c << 1) & 0xFFFF;
    return c;
}

/* What the frames of a transfer carry: its payload, after a checksum if it needs more than one frame. */
static size_t carried(uint64_t signature, unsigned source, unsigned turn, unsigned length, uint8_t *bytes)
{
    size_t front = length > 7 ? 2 : 0;
    unsigned c = 0xFFFF;
    for (int i = 0; i < 8; i++)
        c = crc(c, (uint8_t)(signature >> (8 * i)));
    for (unsigned i = 0; i < length; i++) {
        bytes[front + i] = payload_byte(source, turn, i);
        c = crc(c, bytes[front + i]);
    }
    if (front > 0) {
        bytes[0] = (uint8_t)c;
        bytes[1] = (uint8_t)(c >> 8);
    }
    return front + length;
}

size_t make_transfer(const struct type *type, unsigned source, unsigned turn, unsigned length, struct frame *f)
{
    uint8_t bytes[2 + TECELUME_PAYLOAD_MAX];
    size_t total = carried(tecelume_signature(type->kind, type->type_id), source, turn, length, bytes), at = 0, n = 0;
    for (; at < total; n++) {
        size_t part = total - at < 7 ? total - at : 7;
        bool start = at == 0, end = at + part == total;
        memset(f[n].data, 0, sizeof f[n].data);
        memcpy(f[n].data, bytes + at, part);
        f[n].data[part] = (uint8_t)((start ? 128 : 0) | (end ? 64 : 0) | (n & 1) << 5 | turn % 32);
        f[n].length = (uint8_t)(part + 1);
        f[n].interface_number = 0;
        f[n].id = (uint32_t)FRAME_PRIORITY << 24 | type->type_id << 8 | source;
        at += part;
    }
    return n;
}
