/* Measures the stack of calls: each runs on a stack of its own, painted before, beside a page that can't be touched. Prints the most that
 * any call took. Then it runs all calls again on stacks of the sizes that rice.h states, or of ENCODE_STACK and DECODE_STACK. With SMALL it
 * makes only the calls of the small library.
 * usage: stack [STEP]   try only each STEPth setting */
#define _GNU_SOURCE
#include "rice.h"
#include <stdio.h>
#include <stdlib.h>
#include <string.h>
#include <sys/mman.h>
#include <ucontext.h>

#ifndef ENCODE_STACK
#define ENCODE_STACK RICE_ENCODE_STACK
#define DECODE_STACK RICE_DECODE_STACK
#endif

enum { MOST = 1 << 20, PAGE = 4096, PAINT = 0x5c };

static struct rice_setting setting;
static uint8_t *samples, *code, *back;
static size_t count, room, size;
static struct rice_report report;
static unsigned long step = 1;
static ucontext_t caller, callee;

static void encode(void) {
    if (rice_encode(&setting, samples, size, code, room, &report) != RICE_DONE) abort();
}

static void decode(void) {
    if (rice_decode(&setting, count, code, room, back, size, &report) != RICE_DONE) abort();
}

#ifdef SMALL
#define decode_all decode
#else
static void decode_all(void) {
    rice_decode_all(&setting, code, room, back, size, &report);
}
#endif

/* Two pieces: each has about half of the samples. */
static void feed(void) {
    struct rice_feed feed = {0};
    size_t half = size / 2 / rice_sample_width(&setting) * rice_sample_width(&setting);
    if (rice_begin(&setting, &feed) != RICE_DONE) abort();
    if (rice_push(&feed, samples, half, code, room, &report) != RICE_DONE) abort();
    size_t taken = feed.samples * rice_sample_width(&setting);
    if (rice_finish(&feed, samples + taken, size - taken, code, room, &report) != RICE_DONE) abort();
}

/* Two pieces of a code: the second begins where the first ends. */
static void drain(void) {
    struct rice_drain drain = {0};
    if (rice_open(&setting, &drain) != RICE_DONE) abort();
    rice_pull(&drain, code, room / 2, back, size, &report);
    size_t at = drain.bits / 8;
    rice_pull(&drain, code + at, room - at, back, size, &report);
}

static void nothing(void) {
}

/* Runs a call on a stack of so many bytes, and returns how many it has touched. */
static size_t touched(void (*call)(void), size_t bytes) {
    size_t whole = (bytes + PAGE - 1) / PAGE * PAGE;
    uint8_t *area = mmap(NULL, whole + PAGE, PROT_READ | PROT_WRITE, MAP_PRIVATE | MAP_ANONYMOUS, -1, 0);
    if (area == MAP_FAILED || mprotect(area, PAGE, PROT_NONE)) abort();
    uint8_t *stack = area + PAGE;
    memset(stack, PAINT, whole);
    getcontext(&callee);
    callee.uc_stack.ss_sp = stack;
    callee.uc_stack.ss_size = bytes;
    callee.uc_link = &caller;
    makecontext(&callee, call, 0);
    if (swapcontext(&caller, &callee)) abort();
    size_t i = 0;
    while (i < bytes && stack[i] == PAINT) i++;
    munmap(area, whole + PAGE);
    return bytes - i;
}

static uint32_t seed = 1;
static uint32_t next(void) {
    seed ^= seed << 13;
    seed ^= seed >> 17;
    seed ^= seed << 5;
    return seed;
}

/* Samples of one kind: random ones, a ramp with noise, or zeros with a few others. */
static uint32_t sample(int kind, uint32_t i, uint32_t mask) {
    if (kind == 0) return next() & mask;
    if (kind == 1) return (i + next() % 5) & mask;
    return next() % 500 ? 0 : next() & mask;
}

static void fill(int kind) {
    uint32_t width = rice_sample_width(&setting), mask = 0xffffffffu >> (32 - setting.bits);
    for (uint32_t i = 0; i < count; i++) {
        uint32_t x = sample(kind, i, mask);
        for (uint32_t b = 0; b < width; b++) samples[i * width + b] = (uint8_t)(x >> (8 * b));
    }
    size = count * width;
    memset(back, 0, size);
}

/* Runs all calls for all settings and kinds of samples, each on a stack of that size. Returns the most that one touched. */
static void most(size_t limits[5], size_t found[5]) {
    static const uint32_t blocks[] = {2, 8, 16, 20, 32, 64}, widths[] = {1, 8, 10, 16, 24, 32}, intervals[] = {1, 64, 4096};
    void (*calls[])(void) = {feed, encode, decode, decode_all, drain};
    unsigned long settings = 0;
    for (int b = 0; b < 6; b++) for (int w = 0; w < 6; w++) for (int r = 0; r < 3; r++) for (int flags = 0; flags < 8; flags++) {
        if (settings++ % step) continue;
        setting = (struct rice_setting){widths[w], blocks[b], intervals[r], false, false, flags & 4, flags & 1, flags & 2, true};
        count = 3 * 4096 + 77;
        room = rice_code_room(&setting, count);
        for (int kind = 0; kind < 3; kind++) {
            fill(kind);
            memset(code, 0, room);
            for (int c = 0; c < 5; c++) {
                size_t t = touched(calls[c], limits[c]);
                if (t > found[c]) found[c] = t;
            }
        }
    }
}

int main(int argc, char **argv) {
    if (argc > 1) step = strtoul(argv[1], NULL, 10);
    samples = malloc(1 << 20), code = malloc(1 << 20), back = malloc(1 << 20);
    if (!samples || !code || !back || step == 0) return 2;
    size_t limits[5] = {MOST, MOST, MOST, MOST, MOST}, found[5] = {0, 0, 0, 0, 0}, base = touched(nothing, MOST);
    most(limits, found);
    size_t decoding = found[2] > found[3] ? found[2] : found[3];
    printf("feed %zu, encode %zu, decode %zu, drain %zu, of these %zu for a call that does nothing\n", found[0], found[1], decoding, found[4], base);
    fflush(stdout);
    size_t stated[5] = {ENCODE_STACK, ENCODE_STACK, DECODE_STACK, DECODE_STACK, DECODE_STACK};
    most(stated, found);
    printf("all calls run on stacks of %zu and %zu bytes\n", stated[0], stated[2]);
    return 0;
}
