/* A CRC-32 beside each interval: it tells the interval of each of 2,000 flipped bits, and all others are decoded. Without it most of
 * these bits change samples in silence. */
#include <rice.h>
#include <stdio.h>
#include <stdlib.h>
#include <string.h>

enum { INTERVALS = 20, INTERVAL = 32 * 8, FLIPS = 2000 };

static uint16_t samples[INTERVALS * INTERVAL], back[INTERVAL];
static uint8_t code[2 * sizeof samples];

/* What is kept beside the code: where each interval begins, and the CRC-32 of its bytes. */
static size_t begins[INTERVALS + 1];
static uint32_t crcs[INTERVALS];

static void wrong(const char *what) {
    printf("crc: %s\n", what);
    exit(1);
}

static uint32_t crc_32(const uint8_t *bytes, size_t length) {
    uint32_t crc = 0xffffffff;
    for (size_t i = 0; i < length; i++) {
        crc ^= bytes[i];
        for (int bit = 0; bit < 8; bit++) crc = crc >> 1 ^ (crc & 1 ? 0xedb88320 : 0);
    }
    return ~crc;
}

static uint32_t crc_of(size_t interval) {
    return crc_32(code + begins[interval], begins[interval + 1] - begins[interval]);
}

/* Encodes an interval at a time: where intervals are padded, each is whole bytes, and a code of its own. */
static void encode(const struct rice_setting *setting) {
    for (size_t i = 0; i < INTERVALS; i++) {
        struct rice_report report;
        const uint8_t *from = (const uint8_t *)(samples + i * INTERVAL);
        uint32_t status = rice_encode(setting, from, sizeof back, code + begins[i], sizeof code - begins[i], &report);
        if (status != RICE_DONE) wrong(rice_status_text(status));
        begins[i + 1] = begins[i] + report.written;
        crcs[i] = crc_of(i);
    }
}

/* Decodes one interval from its place on. Returns whether it is whole; its samples are then in `back`. */
static bool decode(const struct rice_setting *setting, size_t interval) {
    size_t begin = begins[interval];
    struct rice_drain drain = {0};
    struct rice_report report;
    if (rice_open_at(setting, interval * INTERVAL, 8 * begin, &drain) != RICE_DONE) wrong("not opened");
    rice_pull(&drain, code + begin, begins[interval + 1] - begin, (uint8_t *)back, sizeof back, &report);
    return report.written == sizeof back;
}

static bool is_same(size_t interval) {
    return memcmp(back, samples + interval * INTERVAL, sizeof back) == 0;
}

/* Returns the interval whose CRC tells that it is damaged. All others have to give their samples. */
static size_t damaged(const struct rice_setting *setting) {
    size_t found = INTERVALS;
    for (size_t i = 0; i < INTERVALS; i++) {
        if (crc_of(i) == crcs[i]) {
            if (!decode(setting, i) || !is_same(i)) wrong("an interval that is whole gives other samples");
        } else {
            if (found < INTERVALS) wrong("one bit damages two intervals");
            found = i;
        }
    }
    return found;
}

int main(void) {
    struct rice_setting setting = rice_setting_for(16);
    setting.interval = INTERVAL / setting.block;
    setting.pad = true;
    if (crc_32((const uint8_t *)"123456789", 9) != 0xcbf43926) wrong("not the CRC-32 of IEEE 802.3");

    uint32_t x = 1;
    for (size_t i = 0; i < INTERVALS * INTERVAL; i++) {
        x = x * 1103515245 + 12345;
        samples[i] = (uint16_t)(1000 + i * i / 9000 + (x >> 16) % 9);
    }
    encode(&setting);

    size_t silent = 0, bits = 8 * begins[INTERVALS];
    for (size_t flip = 0; flip < FLIPS; flip++) {
        size_t at = flip * bits / FLIPS;
        code[at / 8] ^= (uint8_t)(0x80 >> at % 8);
        size_t interval = damaged(&setting);
        if (interval == INTERVALS || at / 8 < begins[interval] || at / 8 >= begins[interval + 1]) wrong("another interval");
        silent += decode(&setting, interval) && !is_same(interval);
        code[at / 8] ^= (uint8_t)(0x80 >> at % 8);
    }
    printf("%d flipped bits: the interval of each is found; %zu of them change samples in silence\n", FLIPS, silent);
    return 0;
}
