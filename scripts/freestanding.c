/* A program for x86-64 Linux without a C library. It has the three functions that the library calls, and its own beginning and end. It
 * encodes and decodes samples, whole and in pieces, and compares them. Its status is 0 if they are the same. */
#include <rice.h>

enum { COUNT = 5000, WIDTH = 2, ROOM = 4 * COUNT, BLOCK = 16 };

void *memset(void *to, int byte, size_t size) {
    for (size_t i = 0; i < size; i++) ((uint8_t *)to)[i] = (uint8_t)byte;
    return to;
}

void *memcpy(void *restrict to, const void *restrict from, size_t size) {
    for (size_t i = 0; i < size; i++) ((uint8_t *)to)[i] = ((const uint8_t *)from)[i];
    return to;
}

void *memmove(void *to, const void *from, size_t size) {
    if ((uintptr_t)to <= (uintptr_t)from) return memcpy(to, from, size);
    for (size_t i = size; i > 0; i--) ((uint8_t *)to)[i - 1] = ((const uint8_t *)from)[i - 1];
    return to;
}

static uint8_t samples[WIDTH * COUNT], code[ROOM], back[WIDTH * (COUNT + BLOCK)];
static const struct rice_setting setting = {12, BLOCK, 64, false, false, false, true, false, false};

static bool came_back(void) {
    for (size_t i = 0; i < sizeof samples; i++) if (back[i] != samples[i]) return false;
    return true;
}

/* All at once. */
static bool at_once(void) {
    struct rice_report report;
    memset(back, 0, sizeof back);
    if (rice_encode(&setting, samples, sizeof samples, code, sizeof code, &report) != RICE_DONE) return false;
    return rice_decode(&setting, COUNT, code, report.written, back, sizeof samples, &report) == RICE_DONE && came_back();
}

/* The first half of the samples, and then the rest; and so of the code. */
static bool in_pieces(void) {
    struct rice_report report;
    struct rice_feed feed = {0};
    struct rice_drain drain = {0};
    memset(back, 0, sizeof back);
    if (rice_begin(&setting, &feed) != RICE_DONE) return false;
    if (rice_push(&feed, samples, sizeof samples / 2, code, sizeof code, &report) != RICE_DONE) return false;
    size_t size = report.written, taken = WIDTH * feed.samples;
    if (rice_finish(&feed, samples + taken, sizeof samples - taken, code + size, sizeof code - size, &report) != RICE_DONE) return false;
    size += report.written;
    if (rice_open(&setting, &drain) != RICE_DONE) return false;
    rice_pull(&drain, code, size / 2, back, sizeof back, &report);
    size_t given = WIDTH * drain.samples, at = drain.bits / 8;
    rice_pull(&drain, code + at, size - at, back + given, sizeof back - given, &report);
    return drain.samples >= COUNT && came_back();
}

static _Noreturn void leave(int status) {
    __asm__ volatile("syscall" : : "a"(60), "D"(status) : "rcx", "r11", "memory");
    __builtin_unreachable();
}

__attribute__((force_align_arg_pointer, used)) _Noreturn void _start(void) {
    uint32_t x = 1;
    for (size_t i = 0; i < COUNT; i++) {
        x = 1664525 * x + 1013904223;
        uint32_t sample = (uint32_t)(i / 3 + (x >> 28)) & 0xfff;
        samples[WIDTH * i] = (uint8_t)sample, samples[WIDTH * i + 1] = (uint8_t)(sample >> 8);
    }
    leave(at_once() && in_pieces() ? 0 : 1);
}
