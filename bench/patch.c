/* A checksum corrected for the first byte of a payload (tecelume_patch), beside the checksum worked out afresh over signature and payload: by
 * the proved function, and by the same table loop in C. Each call makes the byte what the last checksum says, so that none can be left
 * out, and all three must end with the same checksum. Best of ROUNDS rounds; buffers are warm. */
#include <stdio.h>

#include "frames.h"
#include "tecelume.h"

enum { ROUNDS = 151, SIGNATURE = 8, BYTE = SIGNATURE, STEPS = 200000 }; /* short rounds, so that other work on the machine spoils few */

uint16_t bench_crc16(uint16_t c, const uint8_t *s, size_t n);

static uint8_t input[SIGNATURE + TECELUME_PAYLOAD_MAX]; /* the signature's bytes, then the payload */

static uint16_t by_table(uint16_t c, const uint8_t *s, size_t n)
{
    static const uint16_t table[16] = {0x0000, 0x1021, 0x2042, 0x3063, 0x4084, 0x50A5, 0x60C6, 0x70E7,
                                       0x8108, 0x9129, 0xA14A, 0xB16B, 0xC18C, 0xD1AD, 0xE1CE, 0xF1EF};
    for (size_t i = 0; i < n; i++) {
        unsigned x = c >> 8 ^ s[i], high = x >> 4, low = x & 15;
        c = (uint16_t)(c << 8 ^ table[high] << 4 ^ table[high ^ low]);
    }
    return c;
}

/* The checksum after the first of n payload bytes became another. */
typedef uint16_t way(uint16_t checksum, uint8_t byte, size_t n);

static uint16_t corrected(uint16_t checksum, uint8_t byte, size_t n)
{
    tecelume_result result = tecelume_patch(checksum, input[BYTE], byte, n - 1);
    input[BYTE] = byte;
    return (uint16_t)tecelume_checksum(result);
}

static uint16_t afresh_proved(uint16_t checksum, uint8_t byte, size_t n)
{
    (void)checksum;
    input[BYTE] = byte;
    return bench_crc16(0xFFFF, input, SIGNATURE + n);
}

static uint16_t afresh_in_c(uint16_t checksum, uint8_t byte, size_t n)
{
    (void)checksum;
    input[BYTE] = byte;
    return by_table(0xFFFF, input, SIGNATURE + n);
}

static double measure(way *f, size_t n, uint16_t *last)
{
    double best = 1e18;
    size_t calls = STEPS / (n + 16);
    for (int round = 0; round < ROUNDS; round++) {
        input[BYTE] = 0;
        uint16_t c = by_table(0xFFFF, input, SIGNATURE + n);
        double from = nanoseconds();
        for (size_t i = 0; i < calls; i++)
            c = f(c, (uint8_t)(c + i), n);
        double took = (nanoseconds() - from) / (double)calls;
        if (took < best)
            best = took;
        *last = c;
    }
    return best;
}

int main(void)
{
    static const size_t sizes[] = {8, 64, 300, 512};
    int wrong = 0;
    for (size_t i = 0; i < sizeof input; i++)
        input[i] = (uint8_t)(i * 7 + i / 3);
    printf("%-20s %12s %12s %12s %10s\n", "a byte rewritten", "corrected ns", "afresh ns", "C afresh ns", "ratio");
    for (size_t k = 0; k < sizeof sizes / sizeof sizes[0]; k++) {
        uint16_t a, b, c;
        double p = measure(corrected, sizes[k], &a);
        double q = measure(afresh_proved, sizes[k], &b);
        double r = measure(afresh_in_c, sizes[k], &c);
        wrong |= a != b || b != c;
        printf("first of %3zu bytes   %12.1f %12.1f %12.1f %10.3f\n", sizes[k], p, q, r, p / q);
    }
    if (wrong)
        printf("the three DISAGREE\n");
    return wrong;
}
