/* Times of the library's leaves beside plain bit-serial versions and a table CRC-32, in one run; sheet q 12, m 8, v 3, t 28, 32, 39, 58. */
#define _POSIX_C_SOURCE 199309L
#include "gii_bch.h"

#include <stdio.h>
#include <stdlib.h>
#include <string.h>
#include <time.h>

#define SHEET 12, 8, 3, 28, 32, 39, 58
#define N 4095
#define SAMPLES 101

uint32_t leaf_generators(uint32_t, uint32_t, uint32_t, uint32_t, uint32_t, uint32_t, uint32_t, uint32_t count, uint64_t *out, size_t);
uint32_t leaf_tables(uint32_t, uint32_t, uint32_t, uint32_t, uint32_t, uint32_t, uint32_t, uint32_t count, uint64_t *table, size_t);
uint32_t leaf_remainders(uint32_t, uint32_t, uint32_t, uint32_t, uint32_t, uint32_t, uint32_t, uint32_t width, uint32_t count, const uint8_t *, size_t, uint64_t *, size_t);

static uint8_t word[512], page[4096], list[GII_LIST_BYTES(58)], all[GII_ALL_BYTES(58)];
static uint64_t table[3072], row[13];
static volatile uint32_t sink;

/* ---- plain versions, a coefficient at a time */

static uint32_t crc_table[256];

static uint32_t crc(const uint8_t *s, size_t n)
{
    uint32_t c = ~0u;
    while (n--)
        c = c >> 8 ^ crc_table[(c ^ *s++) & 255];
    return ~c;
}

static uint16_t times(uint16_t a, uint16_t b)
{
    uint32_t r = 0;
    for (int k = 11; k >= 0; k--) {
        r <<= 1;
        if (r >> 12)
            r ^= 0x1053;
        if (b >> k & 1)
            r ^= a;
    }
    return (uint16_t)r;
}

static uint16_t alpha_to(unsigned e)
{
    uint16_t r = 1;
    while (e--)
        r = times(r, 2);
    return r;
}

/* The generator of strength t as the product of x + α^e over its roots; its degree is returned. */
static int plain_generator(int t, uint8_t *g)
{
    static uint8_t root[N];
    static uint16_t f[N];
    int degree = 0;
    uint16_t power = 1;
    memset(root, 0, sizeof root);
    memset(f, 0, sizeof f);
    for (int j = 1; j <= 2 * t; j++)
        for (int s = 0, e = j; s < 12; s++, e = 2 * e % N)
            root[e] = 1;
    f[0] = 1;
    for (int e = 0; e < N; e++, power = times(power, 2)) {
        if (!root[e])
            continue;
        for (int k = ++degree; k > 0; k--)
            f[k] = f[k - 1] ^ times(f[k], power);
        f[0] = times(f[0], power);
    }
    for (int k = 0; k <= degree; k++)
        g[k] = (uint8_t)f[k];
    return degree;
}

static void plain_remainder(const uint64_t *g, int w, const uint8_t *s, uint64_t *r)
{
    int words = (w + 63) / 64, top = (w - 1) / 64;
    memset(r, 0, 8 * (size_t)words);
    for (int k = N - 1; k >= 0; k--) {
        uint64_t out = r[top] >> (w - 1) % 64 & 1;
        for (int j = words - 1; j > 0; j--)
            r[j] = r[j] << 1 | r[j - 1] >> 63;
        r[0] = r[0] << 1 | (s[k / 8] >> k % 8 & 1);
        if (out)
            for (int j = 0; j < words; j++)
                r[j] ^= g[j];
    }
}

/* The odd ones, of which there are so many. */
static void plain_syndromes(int count, const uint8_t *s)
{
    for (int j = 1; j < 2 * count; j += 2) {
        uint16_t r = 0, a = alpha_to((unsigned)j);
        for (int k = N - 1; k >= 0; k--)
            r = (uint16_t)(times(r, a) ^ (s[k / 8] >> k % 8 & 1));
        sink += r;
    }
}

/* ---- time */

static double now(void)
{
    struct timespec t;
    clock_gettime(CLOCK_MONOTONIC, &t);
    return (double)t.tv_sec * 1e6 + (double)t.tv_nsec / 1e3;
}

static int by_value(const void *a, const void *b)
{
    double x = *(const double *)a, y = *(const double *)b;
    return (x > y) - (x < y);
}

static double crc_time, wide_time;

static double report(const char *name, double *sample, int n)
{
    qsort(sample, (size_t)n, sizeof *sample, by_value);
    printf("| %s | %.2f µs (%.2f to %.2f) | %.2f |\n", name, sample[n / 2], sample[n / 10], sample[n - 1 - n / 10], crc_time > 0 ? sample[n / 2] / crc_time : 1);
    return sample[n / 2];
}

#define MEASURE(name, n, times_over, what)                            \
    do {                                                              \
        double sample[SAMPLES];                                       \
        for (int i = 0; i < (n); i++) {                               \
            double from = now();                                      \
            what;                                                     \
            sample[i] = (now() - from) / (times_over);                \
        }                                                             \
        last = report(name, sample, n);                               \
    } while (0)

int main(void)
{
    double last = 0;
    static uint8_t g[N + 1];
    uint64_t gw[6] = {0}, r[6];
    int w;
    for (uint32_t i = 0; i < 256; i++) {
        uint32_t c = i;
        for (int k = 0; k < 8; k++)
            c = c & 1 ? c >> 1 ^ 0xEDB88320u : c >> 1;
        crc_table[i] = c;
    }
    for (size_t i = 0, x = 1; i < sizeof word; i++, x = x * 1664525 + 1013904223)
        word[i] = (uint8_t)(x >> 24);
    word[511] &= 127;
    memcpy(page, word, sizeof word);
    w = plain_generator(28, g);
    for (int k = 0; k < w; k++)
        gw[k / 64] |= (uint64_t)g[k] << k % 64;

    /* the two remainders agree */
    leaf_remainders(SHEET, 64, 1, word, sizeof word, row, 13);
    plain_remainder(gw, w, word, r);
    if (w != 336 || memcmp(row, r, 42) != 0)
        return 1;

    puts("| what | time | of a CRC |\n|---|---|---|");
    MEASURE("CRC-32 of 4,096 bytes, a byte at a time", SAMPLES, 10, for (int k = 0; k < 10; k++) sink += crc(page, sizeof page));
    crc_time = last;
    MEASURE("the sheet's test and generators", SAMPLES, 10, sink += leaf_generators(SHEET, 10, row, 13));
    MEASURE("the same, q 4, m 2, v 1, t 1, 2", SAMPLES, 10, sink += leaf_generators(4, 2, 1, 1, 2, 0, 0, 10, row, 13));
    MEASURE("the same, q 8, m 4, v 2, t 4, 8, 16", SAMPLES, 10, sink += leaf_generators(8, 4, 2, 4, 8, 16, 0, 10, row, 13));
    MEASURE("plain: the generators, roots one by one", 11, 1, for (int k = 0; k < 4; k++) sink += (uint32_t)plain_generator((int[]){28, 32, 39, 58}[k], g));
    MEASURE("the table of one generator", SAMPLES, 100, sink += leaf_tables(SHEET, 100, table, 3072));
    MEASURE("remainder of 4,095 bits, L = 64", SAMPLES, 100, sink += leaf_remainders(SHEET, 64, 100, word, sizeof word, row, 13));
    wide_time = last;
    MEASURE("the same, L = 8", SAMPLES, 10, sink += leaf_remainders(SHEET, 8, 10, word, sizeof word, row, 13));
    MEASURE("the same, L = 1", SAMPLES, 10, sink += leaf_remainders(SHEET, 1, 10, word, sizeof word, row, 13));
    printf("| L = 1 to L = 64 | | %.1f times |\n", last / wide_time);
    MEASURE("plain: the remainder, a bit at a time", SAMPLES, 1, plain_remainder(gw, w, word, r));
    MEASURE("28 odd syndromes of a sub-word, everything afresh; at most 0.8", SAMPLES, 1, sink += gii_syndromes(SHEET, 0, page, sizeof page, 0, list, GII_LIST_BYTES(28)));
    MEASURE("58 odd syndromes of a nested word, everything afresh; at most 1.5", SAMPLES, 1, sink += gii_nested_syndromes(SHEET, 0, page, sizeof page, 0, list, sizeof list));
    MEASURE("all 116 from the 58, everything afresh", SAMPLES, 10, for (int k = 0; k < 10; k++) sink += gii_all_syndromes(SHEET, 0, 3, list, sizeof list, all, sizeof all));
    MEASURE("plain: 58 odd syndromes, a bit at a time", 11, 1, plain_syndromes(58, word));
    return 0;
}
