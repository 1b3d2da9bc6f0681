/* A plain table-driven encoder, to compare with: each byte of a parity row is the sum of the data rows'
 * bytes times their weights, one look-up each. It prints the check sum of the parity rows and, in seconds,
 * how long one round took on average.
 *
 *     plain_coding K N ROW STRIPES ROUNDS
 */
#include <stdint.h>
#include <stdio.h>
#include <stdlib.h>
#include <string.h>
#include <time.h>

static uint8_t product[256][256];

static uint8_t times(uint8_t a, uint8_t b) {
    unsigned sum = 0, shifted = a;
    for (int bit = 0; bit < 8; bit++) {
        if (b >> bit & 1) sum ^= shifted;
        shifted <<= 1;
        if (shifted & 256) shifted ^= 0x11d;
    }
    return (uint8_t)sum;
}

static uint8_t inverse(uint8_t a) {
    for (int b = 1; b < 256; b++)
        if (product[a][b] == 1) return (uint8_t)b;
    return 0;
}

static uint8_t weight(int k, int row, int index) {
    uint8_t above = 1, below = 1;
    for (int other = 0; other < k; other++) {
        if (other == row) continue;
        above = product[above][index ^ other];
        below = product[below][row ^ other];
    }
    return product[above][inverse(below)];
}

int main(int argc, char **argv) {
    if (argc != 6) return 2;
    int k = atoi(argv[1]), n = atoi(argv[2]);
    size_t row = strtoul(argv[3], 0, 10), stripes = strtoul(argv[4], 0, 10), stripe = k * row;
    int rounds = atoi(argv[5]);
    for (int a = 0; a < 256; a++)
        for (int b = 0; b < 256; b++) product[a][b] = times((uint8_t)a, (uint8_t)b);
    uint8_t *data = malloc(stripe * stripes), *out = malloc(row * stripes);
    if (!data || !out) return 9;
    uint32_t state = 1;
    for (size_t i = 0; i < stripe * stripes; i++) {
        state = state * 1664525 + 1013904223;
        data[i] = (uint8_t)(state >> 24);
    }
    uint64_t sum = 0;
    struct timespec start, end;
    clock_gettime(CLOCK_MONOTONIC, &start);
    for (int round = 0; round < rounds; round++) {
        sum = 0;
        for (int index = k; index < n; index++) {
            const uint8_t *table[256];
            for (int i = 0; i < k; i++) table[i] = product[weight(k, i, index)];
            memset(out, 0, row * stripes);
            for (size_t s = 0; s < stripes; s++) {
                uint8_t *to = out + s * row;
                for (int i = 0; i < k; i++) {
                    const uint8_t *from = data + s * stripe + i * row;
                    for (size_t c = 0; c < row; c++) to[c] ^= table[i][from[c]];
                }
            }
            for (size_t c = 0; c < row * stripes; c++) sum += out[c];
        }
    }
    clock_gettime(CLOCK_MONOTONIC, &end);
    double seconds = (end.tv_sec - start.tv_sec) + (end.tv_nsec - start.tv_nsec) * 1e-9;
    printf("%llu %.9f\n", (unsigned long long)sum, seconds / rounds);
    return 0;
}
