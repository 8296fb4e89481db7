/* Each status, and what the report says of it. RICE_TOO_LONG takes 2^48 bytes, and isn't tried. */
#include <inttypes.h>
#include <rice.h>
#include <stdio.h>
#include <string.h>

static int wrong;

/* Prints a status, and notes whether it, its place and the bytes written are the ones that are awaited. */
static void expect(const char *what, uint32_t status, const struct rice_report *report, uint32_t awaited, uint64_t place, uint64_t written) {
    printf("%-28s %2" PRIu32 " %-36s place %" PRIu64 ", %" PRIu64 " bytes written\n", what, status, rice_status_text(status), report->place, report->written);
    if (status != awaited || report->place != place || report->written != written) wrong = 1;
}

/* Each status has a text of its own, and other numbers have another. */
static void try_texts(void) {
    for (uint32_t status = RICE_DONE; status <= RICE_BAD_PLACE + 1; status++) {
        for (uint32_t other = 0; other < status; other++) {
            if (strcmp(rice_status_text(status), rice_status_text(other)) == 0) wrong = 1;
        }
    }
    if (strcmp(rice_status_text(RICE_BAD_PLACE + 1), rice_status_text(UINT32_MAX)) != 0) wrong = 1;
}

int main(void) {
    struct rice_setting setting = {.bits = 8, .block = 8, .interval = 2, .preprocess = true};
    struct rice_report report;
    uint8_t samples[16], code[64] = {0}, back[64] = {0};
    memset(samples, 5, sizeof samples);
    samples[15] = 4;

    expect("sixteen samples", rice_encode(&setting, samples, 16, code, sizeof code, &report), &report, RICE_DONE, 0, 3);
    expect("and back", rice_decode(&setting, 16, code, 3, back, sizeof back, &report), &report, RICE_DONE, 0, 16);
    expect("without a count", rice_decode_all(&setting, code, 3, back, sizeof back, &report), &report, RICE_DONE, 0, 16);
    expect("more samples than coded", rice_decode(&setting, 40, code, 3, back, sizeof back, &report), &report, RICE_CODE_ENDS, 16, 16);
    expect("a code that is cut", rice_decode(&setting, 16, code, 1, back, sizeof back, &report), &report, RICE_CODE_ENDS, 0, 0);
    expect("room for one byte of code", rice_encode(&setting, samples, 16, code, 1, &report), &report, RICE_NO_ROOM, 0, 1);
    expect("room for ten samples", rice_decode(&setting, 16, (const uint8_t[]){0, 0x58, 0xf2}, 3, back, 10, &report), &report, RICE_NO_ROOM, 0, 10);
    expect("a run that is too long", rice_decode(&setting, 16, (const uint8_t[]){0x00, 0x01, 0xff}, 3, back, sizeof back, &report), &report, RICE_RUN_PAST_SEGMENT, 0, 0);

    struct rice_setting few = setting;
    few.bits = 1;
    uint8_t bits[16] = {0};
    bits[3] = 2;
    expect("2 in one bit", rice_encode(&few, bits, 16, code, sizeof code, &report), &report, RICE_SAMPLE_OUT_OF_RANGE, 3, 0);
    expect("a residual too large", rice_decode(&setting, 16, (const uint8_t[]){0x10, 0x00, 0xff}, 3, back, sizeof back, &report), &report, RICE_RESIDUAL_TOO_LARGE, 0, 0);
    struct rice_setting wide = setting;
    wide.bits = 16;
    expect("half a sample", rice_encode(&wide, samples, 15, code, sizeof code, &report), &report, RICE_INPUT_CUT, 7, 0);

    struct rice_setting bad = setting;
    bad.bits = 33;
    expect("33 bits", rice_encode(&bad, samples, 16, code, sizeof code, &report), &report, RICE_BAD_BITS, 0, 0);
    bad = setting;
    bad.block = 10;
    expect("blocks of 10", rice_decode(&bad, 16, code, 3, back, sizeof back, &report), &report, RICE_BAD_BLOCK, 0, 0);
    bad = setting;
    bad.interval = 0;
    expect("no interval", rice_decode_all(&bad, code, 3, back, sizeof back, &report), &report, RICE_BAD_INTERVAL, 0, 0);

    struct rice_drain drain = {0};
    if (rice_open(&setting, &drain) != RICE_DONE) wrong = 1;
    expect("a piece of zeros", rice_pull(&drain, (const uint8_t[]){0x00}, 1, back, sizeof back, &report), &report, RICE_ONLY_ZEROS, 0, 0);
    expect("a piece that is cut", rice_pull(&drain, (const uint8_t[]){0x00, 0x40}, 2, back, sizeof back, &report), &report, RICE_MORE_CODE, 0, 0);
    struct rice_setting padded = setting;
    padded.pad = true;
    expect("an interval inside a byte", rice_open_at(&padded, 16, 3, &drain), &report, RICE_BAD_PLACE, 0, 0);
    try_texts();
    return wrong;
}
