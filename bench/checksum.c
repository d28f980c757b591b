/* The transfer checksum over 8, 64 and 512 bytes: the proved function beside the same table loop in C and a loop bit by bit.
 * Each call starts from the last one's result, so that none can be left out. Best of 15 rounds; buffers are warm. */
#include <stdint.h>
#include <stdio.h>
#include <string.h>
#include <time.h>

uint16_t bench_crc16(uint16_t c, const uint8_t *s, size_t n);

static uint16_t table[16];

static uint16_t bitwise(uint16_t c, const uint8_t *s, size_t n)
{
    for (size_t i = 0; i < n; i++) {
        c ^= (uint16_t)(s[i] << 8);
        for (int k = 0; k < 8; k++)
            c = (uint16_t)((c & 0x8000) ? (c << 1) ^ 0x1021 : c << 1);
    }
    return c;
}

static uint16_t by_table(uint16_t c, const uint8_t *s, size_t n)
{
    for (size_t i = 0; i < n; i++) {
        unsigned x = c >> 8 ^ s[i], high = x >> 4, low = x & 15;
        c = (uint16_t)(c << 8 ^ table[high] << 4 ^ table[high ^ low]);
    }
    return c;
}

typedef uint16_t (*crc)(uint16_t, const uint8_t *, size_t);

static double seconds(void)
{
    struct timespec t;
    clock_gettime(CLOCK_MONOTONIC, &t);
    return (double)t.tv_sec + (double)t.tv_nsec * 1e-9;
}

static double nanoseconds(crc f, const uint8_t *s, size_t n, uint16_t *sum)
{
    double best = 1e9;
    size_t calls = 4000000 / (n + 16);
    for (int round = 0; round < 15; round++) {
        uint16_t c = 0xFFFF;
        double from = seconds();
        for (size_t i = 0; i < calls; i++)
            c = f(c, s, n);
        double took = (seconds() - from) / (double)calls * 1e9;
        if (took < best)
            best = took;
        *sum = c;
    }
    return best;
}

int main(void)
{
    static uint8_t s[512];
    const size_t sizes[] = {8, 64, 512};
    int wrong = 0;
    for (int i = 0; i < 16; i++) {
        uint8_t b = (uint8_t)i;
        table[i] = bitwise(0, &b, 1);
    }
    for (int i = 0; i < 512; i++)
        s[i] = (uint8_t)(i * 7 + i / 3);
    wrong |= bench_crc16(0xFFFF, (const uint8_t *)"123456789", 9) != 0x29B1;
    printf("%-10s %12s %12s %12s %10s\n", "checksum", "proved ns", "C table ns", "C bits ns", "ratio");
    for (int k = 0; k < 3; k++) {
        uint16_t a, b, c;
        double p = nanoseconds(bench_crc16, s, sizes[k], &a);
        double t = nanoseconds(by_table, s, sizes[k], &b);
        double w = nanoseconds(bitwise, s, sizes[k], &c);
        wrong |= a != b || b != c;
        printf("%4zu bytes %12.1f %12.1f %12.1f %10.2f\n", sizes[k], p, t, w, p / t);
    }
    if (wrong)
        printf("the implementations DISAGREE\n");
    return wrong;
}
