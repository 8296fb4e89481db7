/* Samples that come a few at a time, in room for one segment: the same code as that of all at once. And intervals, one by one. */
#include <rice.h>
#include <stdio.h>
#include <stdlib.h>
#include <string.h>

enum { COUNT = 100000, SEGMENT = 64 * 64 * 4, ROOM = 20000 };

static uint8_t samples[COUNT * 4], whole[COUNT * 5], pieces[COUNT * 5];

/* What a caller keeps between two calls: the feed, and the samples of the segment that is not whole yet. */
static struct rice_feed feed;
static uint8_t waiting[SEGMENT];
static size_t kept;

static size_t size; /* of the code that went out */

/* Sends some bytes of code. */
static void send(const uint8_t *code, size_t bytes) {
    memcpy(pieces + size, code, bytes);
    size += bytes;
}

/* The most bytes that the samples that are kept can take. No more are given to a call. */
static size_t room(void) {
    uint64_t bytes = rice_push_room(&feed, kept / rice_sample_width(&feed.setting));
    if (bytes > ROOM) abort();
    return (size_t)bytes;
}

/* Gives all samples that are kept, and keeps those that were not taken. */
static uint32_t push(void) {
    uint8_t code[ROOM] = {0};
    struct rice_report report;
    uint64_t before = feed.samples;
    uint32_t status = rice_push(&feed, waiting, kept, code, room(), &report);
    if (status != RICE_DONE) return status;
    send(code, report.written);
    size_t taken = (feed.samples - before) * rice_sample_width(&feed.setting);
    memmove(waiting, waiting + taken, kept - taken);
    kept -= taken;
    return status;
}

/* Encodes all samples, as many bytes at a time as `step` has and fit. */
static uint32_t encode(const struct rice_setting *setting, size_t bytes, size_t step) {
    size = kept = 0;
    uint32_t status = rice_begin(setting, &feed);
    for (size_t at = 0; at < bytes && status == RICE_DONE;) {
        size_t next = SEGMENT - kept < step ? SEGMENT - kept : step;
        if (next > bytes - at) next = bytes - at;
        memcpy(waiting + kept, samples + at, next);
        kept += next;
        at += next;
        status = push();
    }
    if (status != RICE_DONE) return status;
    uint8_t code[ROOM] = {0};
    struct rice_report report;
    status = rice_finish(&feed, waiting, kept, code, room(), &report);
    if (status == RICE_DONE) send(code, report.written);
    return status;
}

/* Tries one setting with some numbers of samples and sizes of pieces. */
static void try(struct rice_setting setting) {
    static const size_t counts[] = {0, 1, 511, 512, 513, 5000, COUNT}, steps[] = {1000, 4096, SEGMENT};
    uint32_t width = rice_sample_width(&setting);
    for (size_t c = 0; c < sizeof counts / sizeof *counts; c++) {
        for (size_t s = 0; s < sizeof steps / sizeof *steps; s++) {
            struct rice_report report;
            size_t bytes = counts[c] * width;
            if (rice_encode(&setting, samples, bytes, whole, sizeof whole, &report) != RICE_DONE) abort();
            uint32_t status = encode(&setting, bytes, steps[s]);
            if (status != RICE_DONE || size != report.written || memcmp(whole, pieces, size) != 0) {
                printf("%s: %zu samples in pieces of %zu bytes\n", rice_status_text(status), counts[c], steps[s]);
                exit(1);
            }
        }
    }
}

/* Where intervals are padded, each is a code of its own. */
static void one_by_one(struct rice_setting setting) {
    struct rice_report report;
    size_t bytes = COUNT * rice_sample_width(&setting), interval = setting.block * setting.interval * rice_sample_width(&setting);
    if (rice_encode(&setting, samples, bytes, whole, sizeof whole, &report) != RICE_DONE) abort();
    uint64_t all = report.written;
    size = 0;
    for (size_t at = 0; at < bytes; at += interval) {
        size_t next = bytes - at < interval ? bytes - at : interval;
        if (rice_encode(&setting, samples + at, next, pieces + size, sizeof pieces - size, &report) != RICE_DONE) abort();
        size += report.written;
    }
    if (size != all || memcmp(whole, pieces, size) != 0) {
        printf("intervals of %u blocks are no codes of their own\n", (unsigned)setting.interval);
        exit(1);
    }
}

/* What is refused leaves the feed as it was. */
static void refuse(void) {
    uint8_t code[ROOM] = {0}, bad[8] = {1, 0, 0, 2};
    struct rice_setting setting = {.bits = 9, .block = 8, .interval = 1, .preprocess = true};
    struct rice_report report;
    if (rice_begin(&setting, &feed) != RICE_DONE) abort();
    struct rice_feed before = feed;
    memset(samples, 0, 1600);
    if (rice_push(&feed, samples, 1600, code, 3, &report) != RICE_NO_ROOM || memcmp(&before, &feed, sizeof feed) != 0) abort();
    if (rice_finish(&feed, bad, 3, code, sizeof code, &report) != RICE_INPUT_CUT || report.place != 1) abort();
    if (rice_finish(&feed, bad, 4, code, sizeof code, &report) != RICE_SAMPLE_OUT_OF_RANGE || report.place != 1) abort();
    memcpy(samples + 2, bad, 4);
    if (rice_push(&feed, samples, 1600, code, sizeof code, &report) != RICE_SAMPLE_OUT_OF_RANGE || report.place != 2) abort();
    if (memcmp(&before, &feed, sizeof feed) != 0) abort();
    setting.bits = 33;
    if (rice_begin(&setting, &feed) != RICE_BAD_BITS || memcmp(&before, &feed, sizeof feed) != 0) abort();
}

int main(void) {
    for (size_t i = 0; i < sizeof samples; i++) samples[i] = (uint8_t)(i % 4 == 0 ? i / 700 + i % 9 : 0);
    static const uint32_t bits[] = {8, 16, 32}, blocks[] = {8, 64}, intervals[] = {1, 64, 100, 4096};
    for (int flags = 0; flags < 4; flags++) {
        for (size_t i = 0; i < 3 * 2 * 4; i++) {
            struct rice_setting setting = {.bits = bits[i % 3], .block = blocks[i / 3 % 2], .interval = intervals[i / 6], .preprocess = flags & 1, .pad = flags & 2};
            try(setting);
            if (setting.pad) one_by_one(setting);
        }
    }
    refuse();
    printf("the code of pieces is that of all samples\n");
    return 0;
}
