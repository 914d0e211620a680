/* The kernels of sound in C, as crates/kernel_count runs them: kernels KERNEL ROUNDS, a thousand times a round. */
#include <stdint.h>
#include <stdio.h>
#include <stdlib.h>
#include <string.h>

enum { FRAMES = 512, TIMES = 1000 };

static int32_t nearest(int64_t x) { return x > INT32_MAX ? INT32_MAX : x < INT32_MIN ? INT32_MIN : (int32_t)x; }

#define KERNEL __attribute__((noinline))

KERNEL static void add(int64_t *sums, const int32_t *x, size_t n) {
    for (size_t k = 0; k < n; k++) sums[k] += x[k];
}

KERNEL static void finish(const int64_t *sums, int32_t *out, size_t n) {
    for (size_t k = 0; k < n; k++) out[k] = nearest(sums[k]);
}

KERNEL static void gain(const int32_t *x, int32_t factor, int32_t *out, size_t n) {
    for (size_t k = 0; k < n; k++) out[k] = nearest(((int64_t)x[k] * factor) >> 24);
}

KERNEL static void gain_of_any(const int32_t *x, int64_t factor, int32_t *out, size_t n) {
    for (size_t k = 0; k < n; k++) {
        __int128 product = ((__int128)x[k] * factor) >> 24;
        out[k] = product > INT32_MAX ? INT32_MAX : product < INT32_MIN ? INT32_MIN : (int32_t)product;
    }
}

KERNEL static void pcm(const int32_t *x, uint8_t *out, size_t n) {
    for (size_t k = 0; k < n; k++) {
        int32_t sample = x[k] >> 9;
        sample = sample > INT16_MAX ? INT16_MAX : sample < INT16_MIN ? INT16_MIN : sample;
        out[2 * k] = (uint8_t)sample;
        out[2 * k + 1] = (uint8_t)(sample >> 8);
    }
}

int main(int argc, char **argv) {
    static int32_t x[FRAMES], out[FRAMES];
    static int64_t sums[FRAMES];
    static uint8_t bytes[2 * FRAMES];
    if (argc != 3) return 1;
    long rounds = atol(argv[2]);
    for (int k = 0; k < FRAMES; k++) {
        x[k] = k * 65536 - 16777216;
        sums[k] = k * INT64_C(16777216);
    }
    for (long round = 0; round < rounds; round++) {
        if (!strcmp(argv[1], "add")) memset(sums, 0, sizeof sums);
        for (int time = 0; time < TIMES; time++) {
            if (!strcmp(argv[1], "add")) add(sums, x, FRAMES);
            else if (!strcmp(argv[1], "finish")) finish(sums, out, FRAMES);
            else if (!strcmp(argv[1], "gain")) gain(x, 16777215, out, FRAMES);
            else if (!strcmp(argv[1], "gain_of_any")) gain_of_any(x, INT64_C(4294967295), out, FRAMES);
            else pcm(x, bytes, FRAMES);
        }
    }
    printf("%d\n", (int)sums[FRAMES - 1] + out[FRAMES - 1] + bytes[2 * FRAMES - 1]);
    return 0;
}
