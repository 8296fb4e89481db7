/* Samples of 12 bits in words of 16, whose highest four bits are an instrument's flags: as they are they are out of range, and
 * once they are spelled they are coded. */
#include <rice.h>
#include <stdio.h>
#include <stdlib.h>
#include <string.h>

static void wrong(const char *what) {
    printf("spelling: %s\n", what);
    exit(1);
}

/* Spells two samples and a byte, compares them, and encodes the samples. */
static void try(struct rice_setting setting, const uint8_t *words, const uint8_t *spelled) {
    uint8_t samples[5], code[16] = {0};
    struct rice_report report;
    memcpy(samples, words, 5);
    if (rice_encode(&setting, samples, 4, code, sizeof code, &report) != RICE_SAMPLE_OUT_OF_RANGE) wrong("flags are in range");
    if (rice_spell(&setting, samples, 5) != RICE_DONE) wrong("not spelled");
    if (memcmp(samples, spelled, 5)) wrong("other samples");
    if (rice_encode(&setting, samples, 4, code, sizeof code, &report) != RICE_DONE) wrong("not encoded");
}

int main(void) {
    struct rice_setting setting = {.bits = 12, .block = 8, .interval = 2, .preprocess = true}, refused = {.bits = 12};
    /* 0xA123 and 0x5FFF: as unsigned 0x123 and 0xFFF, as signed 0x123 and -1. */
    static const uint8_t low_first[] = {0x23, 0xa1, 0xff, 0x5f, 0x77}, high_first[] = {0xa1, 0x23, 0x5f, 0xff, 0x77};
    try(setting, low_first, (const uint8_t[]){0x23, 0x01, 0xff, 0x0f, 0x77});
    setting.is_signed = true;
    try(setting, low_first, (const uint8_t[]){0x23, 0x01, 0xff, 0xff, 0x77});
    setting.msb = true;
    try(setting, high_first, (const uint8_t[]){0x01, 0x23, 0xff, 0xff, 0x77});
    if (rice_spell(&refused, NULL, 0) != RICE_BAD_BLOCK || rice_spell(&setting, NULL, 0) != RICE_DONE) wrong("no samples");
    puts("unused bits of any kind: the samples of the others");
    return 0;
}
