/* Four processes decode one code, each a part of it that begins where an interval does. */
#define _DEFAULT_SOURCE
#include <rice.h>
#include <stdio.h>
#include <stdlib.h>
#include <string.h>
#include <sys/mman.h>
#include <sys/wait.h>
#include <unistd.h>

enum { INTERVALS = 400, INTERVAL = 64 * 16, COUNT = INTERVALS * INTERVAL, PARTS = 4 };

static const struct rice_setting setting = {.bits = 16, .block = 16, .interval = 64, .preprocess = true};
static uint8_t samples[2 * COUNT], code[3 * COUNT];
static size_t size; /* of the code */

/* Where each interval begins, in bits: what is kept beside the code. */
static uint64_t begins[INTERVALS + 1];

/* Encodes an interval at a time, and notes where each one begins: after the bytes written so far and the bits that wait. */
static void encode(void) {
    struct rice_feed feed = {0};
    struct rice_report report;
    if (rice_begin(&setting, &feed) != RICE_DONE) exit(1);
    for (size_t i = 0; i < INTERVALS; i++) {
        begins[i] = 8 * size + feed.waiting_bits;
        if (rice_push(&feed, samples + 2 * INTERVAL * i, 2 * INTERVAL, code + size, sizeof code - size, &report) != RICE_DONE) exit(1);
        size += report.written;
    }
    if (rice_finish(&feed, samples, 0, code + size, sizeof code - size, &report) != RICE_DONE) exit(1);
    size += report.written;
}

/* Decodes the intervals of a part. */
static int decode(size_t part, uint8_t *back) {
    size_t first = INTERVALS * part / PARTS, end = INTERVALS * (part + 1) / PARTS, at = begins[first] / 8;
    struct rice_drain drain = {0};
    struct rice_report report;
    if (rice_open_at(&setting, INTERVAL * first, begins[first], &drain) != RICE_DONE) return 1;
    size_t room = 2 * INTERVAL * (end - first);
    return rice_pull(&drain, code + at, size - at, back + 2 * INTERVAL * first, room, &report) != RICE_NO_ROOM || report.written != room;
}

int main(void) {
    uint32_t x = 1, level = 30000;
    for (size_t i = 0; i < COUNT; i++) {
        x = x * 1103515245 + 12345;
        level = (level + (x >> 16) % 9 - 4) & 0xffff;
        samples[2 * i] = (uint8_t)level, samples[2 * i + 1] = (uint8_t)(level >> 8);
    }
    encode();
    uint8_t *back = mmap(NULL, sizeof samples, PROT_READ | PROT_WRITE, MAP_SHARED | MAP_ANONYMOUS, -1, 0);
    if (back == MAP_FAILED) return 2;
    for (size_t part = 0; part < PARTS; part++) {
        pid_t child = fork();
        if (child < 0) return 2;
        if (child == 0) _exit(decode(part, back));
    }
    for (int part = 0; part < PARTS; part++) {
        int status;
        if (wait(&status) < 0 || !WIFEXITED(status) || WEXITSTATUS(status)) return 1;
    }
    if (memcmp(back, samples, sizeof samples)) return 1;
    printf("%d processes: %zu bytes of code, the same samples\n", PARTS, size);
    return 0;
}
