/* The least CPU time of some runs of rice_encode and rice_decode, as megabytes of samples a second.
 * usage: small_speed */
#include <rice.h>
#include <stdio.h>
#include <string.h>
#include <time.h>

enum { SIZE = 1 << 20, RUNS = 9 };

static uint8_t samples[SIZE], code[2 * SIZE], back[SIZE];
static struct rice_report report;

static uint32_t seed = 1;
static uint32_t next(void) {
    seed ^= seed << 13;
    seed ^= seed >> 17;
    seed ^= seed << 5;
    return seed;
}

static double now(void) {
    struct timespec t;
    clock_gettime(CLOCK_PROCESS_CPUTIME_ID, &t);
    return (double)t.tv_sec + 1e-9 * (double)t.tv_nsec;
}

/* Samples that walk by so much at most. */
static void fill(uint32_t width, uint32_t mask, uint32_t most) {
    uint32_t x = mask / 2;
    for (size_t i = 0; i < SIZE; i += width) {
        x = (x + next() % (2 * most + 1) - most) & mask;
        for (uint32_t b = 0; b < width; b++) samples[i + b] = (uint8_t)(x >> (8 * b));
    }
}

static int measure(const char *name, struct rice_setting setting, uint32_t most) {
    uint32_t width = rice_sample_width(&setting);
    double encoding = 1e9, decoding = 1e9;
    fill(width, 0xffffffffu >> (32 - setting.bits), most);
    for (int run = 0; run < RUNS; run++) {
        double begin = now();
        if (rice_encode(&setting, samples, SIZE, code, sizeof code, &report) != RICE_DONE) return 1;
        double middle = now();
        if (rice_decode(&setting, SIZE / width, code, report.written, back, SIZE, &report) != RICE_DONE) return 1;
        double end = now();
        if (middle - begin < encoding) encoding = middle - begin;
        if (end - middle < decoding) decoding = end - middle;
    }
    if (memcmp(samples, back, SIZE)) return 1;
    printf("%-32s encode %6.0f, decode %6.0f\n", name, 1e-6 * SIZE / encoding, 1e-6 * SIZE / decoding);
    return 0;
}

int main(void) {
    struct rice_setting bytes = {8, 16, 128, false, false, false, true, false, false}, halves = {16, 16, 128, false, false, false, true, false, false};
    struct rice_setting words = {32, 32, 128, false, false, false, true, false, false};
    return measure("8 bits, blocks of 16", bytes, 3) || measure("16 bits, blocks of 16", halves, 100) || measure("32 bits, blocks of 32", words, 100000);
}
