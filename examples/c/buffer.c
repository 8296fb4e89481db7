/* A buffer of samples, there and back. */
#include <rice.h>
#include <stdio.h>
#include <stdlib.h>
#include <string.h>

/* 16-bit samples of a slow wave, least significant byte first, as most machines hold them. */
static void fill(uint16_t *samples, size_t count) {
    for (size_t i = 0; i < count; i++) samples[i] = (uint16_t)(1000 + i * (200 - i % 200) % 997 / 10);
}

int main(void) {
    enum { COUNT = 10000 };
    static uint16_t samples[COUNT], back[COUNT];
    struct rice_setting setting = rice_setting_for(16);
    struct rice_report report;
    fill(samples, COUNT);

    size_t room = rice_code_room(&setting, COUNT);
    uint8_t *code = calloc(room, 1);
    if (!code) return 1;
    uint32_t status = rice_encode(&setting, (const uint8_t *)samples, sizeof samples, code, room, &report);
    if (status != RICE_DONE) {
        fprintf(stderr, "encoding: %s\n", rice_status_text(status));
        return 1;
    }
    size_t size = report.written;

    status = rice_decode(&setting, COUNT, code, size, (uint8_t *)back, sizeof back, &report);
    if (status != RICE_DONE || memcmp(samples, back, sizeof samples) != 0) {
        fprintf(stderr, "decoding: %s\n", rice_status_text(status));
        return 1;
    }
    printf("%zu bytes of samples, %zu of code, and the same bytes back\n", sizeof samples, size);
    free(code);
    return 0;
}
