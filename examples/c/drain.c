/* A code that comes a few bytes at a time, in room for a block: the samples that decoding it at once gives. Then a range out of its
 * middle, and an interval that is damaged and costs its own samples alone. */
#include <rice.h>
#include <stdio.h>
#include <stdlib.h>
#include <string.h>

enum { COUNT = 100000, MOST_INTERVALS = 2000 };

static uint8_t samples[COUNT * 4], code[COUNT * 5], back[COUNT * 4 + 64 * 4096 * 4];
static size_t size; /* of the code */

/* Where an interval begins: what a caller keeps to begin there. */
struct begins {
    uint64_t samples, bits;
};
static struct begins intervals[MOST_INTERVALS];
static size_t interval_count;

static void wrong(const char *what) {
    printf("drain: %s\n", what);
    exit(1);
}

/* Decodes the first `count` samples in pieces of up to `step` bytes and room for `blocks` blocks. A piece that gives nothing is
 * followed by one twice as long. */
static uint32_t decode(const struct rice_setting *setting, uint64_t count, size_t step, size_t blocks) {
    uint8_t room[64 * 4 * 16] = {0};
    struct rice_drain drain = {0};
    struct rice_report report;
    size_t width = rice_sample_width(setting), block = setting->block * width, written = 0, len = step;
    uint32_t status = rice_open(setting, &drain);
    while (status == RICE_DONE || drain.samples < count) {
        size_t at = drain.bits / 8, piece = len < size - at ? len : size - at;
        status = rice_pull(&drain, code + at, piece, room, blocks * block, &report);
        memcpy(back + written, room, report.written);
        written += report.written;
        if (status == RICE_NO_ROOM) continue;
        if (status != RICE_MORE_CODE && status != RICE_ONLY_ZEROS) return status;
        if (at + piece == size) return drain.samples < count ? RICE_CODE_ENDS : RICE_DONE;
        len = report.written ? step : 2 * len;
    }
    return RICE_DONE;
}

/* Finds where each interval begins, a block at a time. */
static void find_intervals(const struct rice_setting *setting) {
    uint8_t room[64 * 4] = {0};
    struct rice_drain drain = {0};
    struct rice_report report;
    interval_count = 0;
    if (rice_open(setting, &drain) != RICE_DONE) wrong("not opened");
    for (;;) {
        if (drain.block == 0 && drain.run == 0 && interval_count < MOST_INTERVALS) {
            intervals[interval_count].samples = drain.samples;
            intervals[interval_count++].bits = drain.bits;
        }
        size_t at = drain.bits / 8;
        if (rice_pull(&drain, code + at, size - at, room, setting->block * rice_sample_width(setting), &report) != RICE_NO_ROOM) return;
    }
}

/* Decodes `count` samples from the interval with number `i` on, and compares them. */
static uint32_t range(const struct rice_setting *setting, size_t i, size_t count) {
    struct rice_drain drain = {0};
    struct rice_report report;
    size_t width = rice_sample_width(setting), block = setting->block, all = (count + block - 1) / block * block;
    if (rice_open_at(setting, intervals[i].samples, intervals[i].bits, &drain) != RICE_DONE) wrong("not opened at an interval");
    size_t at = drain.bits / 8;
    return rice_pull(&drain, code + at, size - at, back, all * width, &report) == RICE_NO_ROOM &&
           memcmp(back, samples + intervals[i].samples * width, count * width) == 0;
}

static void fill(const struct rice_setting *setting) {
    uint32_t x = 1, width = rice_sample_width(setting), mask = 0xffffffffu >> (32 - setting->bits), level = 0;
    for (size_t i = 0; i < COUNT; i++) {
        x = x * 1103515245 + 12345;
        if (i % 5000 < 3000) level = (level + (x >> 16) % 7) & mask;
        for (uint32_t b = 0; b < width; b++) samples[i * width + b] = (uint8_t)(level >> (8 * b));
    }
}

/* Damages the code of one interval: those after it are decoded as before. */
static void damage(const struct rice_setting *setting) {
    size_t last = interval_count / 2, at = intervals[last].bits / 8, width = rice_sample_width(setting);
    memset(code + at, 0xff, intervals[last + 1].bits / 8 - at);
    for (size_t i = 0; i + 2 < interval_count; i++) {
        size_t count = intervals[i + 1].samples - intervals[i].samples;
        if (i != last && !range(setting, i, count)) wrong("damage went on into another interval");
    }
    (void)width;
}

static void try(struct rice_setting setting) {
    static const size_t steps[] = {1, 100, 65536}, blocks[] = {1, 16};
    struct rice_report report;
    size_t width = rice_sample_width(&setting);
    fill(&setting);
    memset(code, 0, sizeof code);
    if (rice_encode(&setting, samples, COUNT * width, code, sizeof code, &report) != RICE_DONE) wrong("not encoded");
    size = report.written;
    for (int s = 0; s < 3; s++) for (int b = 0; b < 2; b++) {
        if (decode(&setting, COUNT, steps[s], blocks[b]) != RICE_DONE) wrong("not decoded");
        if (memcmp(back, samples, COUNT * width)) wrong("other samples");
    }
    find_intervals(&setting);
    if (interval_count < 5 || !range(&setting, interval_count / 2, 1000)) wrong("another range");
    if (setting.pad) damage(&setting);
}

int main(void) {
    try((struct rice_setting){.bits = 8, .block = 8, .interval = 100, .preprocess = true});
    try((struct rice_setting){.bits = 12, .block = 16, .interval = 64, .preprocess = true, .pad = true});
    try((struct rice_setting){.bits = 20, .block = 64, .interval = 3, .preprocess = true, .three = true});
    try((struct rice_setting){.bits = 32, .block = 32, .interval = 128});
    puts("in pieces, from an interval on, and with damage: the same samples");
    return 0;
}
