/* The trailer of a capture without a preface, made right: its checksum, CRC-16-CCITT-FALSE of its records, or all of it. */
#ifndef SEAL_H
#define SEAL_H

#include "tecelume.h"

static inline void seal(uint8_t *capture, size_t size)
{
    uint32_t sum = 0xFFFF;
    for (size_t i = 0; i < size - TECELUME_TRAILER_SIZE; i++) {
        sum ^= (uint32_t)capture[i] << 8;
        for (int bit = 0; bit < 8; bit++)
            sum = (sum & 0x8000 ? sum << 1 ^ 0x1021 : sum << 1) & 0xFFFF;
    }
    capture[size - 4] = (uint8_t)sum;
    capture[size - 3] = (uint8_t)(sum >> 8);
}

/* Writes the trailer after so many records; the length of all. */
static inline size_t trail(uint8_t *capture, size_t records)
{
    size_t size = TECELUME_CAPTURE_SIZE(records);
    uint8_t *trailer = capture + size - TECELUME_TRAILER_SIZE;
    for (size_t i = 0; i < 8; i++)
        trailer[i] = (uint8_t)((uint64_t)TECELUME_STAMPED_SIZE * records >> 8 * i);
    for (size_t i = 0; i < 4; i++)
        trailer[8 + i] = (uint8_t)(records >> 8 * i);
    trailer[14] = 'C';
    trailer[15] = 'T';
    seal(capture, size);
    return size;
}

#endif
