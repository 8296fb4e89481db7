/* No bytes at all: with the length 0 a pointer may be NULL. And the library is that of the header. */
#include <rice.h>
#include <stdio.h>
#include <stdlib.h>

static struct rice_report report;

/* Whether a call has done all, and has written nothing. */
static bool is_nothing(uint32_t status) {
    return status == RICE_DONE && report.written == 0 && report.samples == 0;
}

int main(void) {
    const struct rice_setting setting = {.bits = 8, .block = 8, .interval = 2, .preprocess = true};
    const uint8_t samples[1] = {5};
    uint8_t code[1] = {0};
    struct rice_feed feed = {0};
    if (rice_version() != RICE_VERSION) abort();
    if (!is_nothing(rice_encode(&setting, NULL, 0, NULL, 0, &report))) abort();
    if (!is_nothing(rice_decode(&setting, 0, NULL, 0, NULL, 0, &report))) abort();
    if (!is_nothing(rice_decode_all(&setting, NULL, 0, NULL, 0, &report))) abort();
    if (rice_begin(&setting, &feed) != RICE_DONE) abort();
    if (!is_nothing(rice_push(&feed, NULL, 0, NULL, 0, &report))) abort();
    if (!is_nothing(rice_finish(&feed, NULL, 0, NULL, 0, &report))) abort();
    if (rice_encode(&setting, samples, 1, NULL, 0, &report) != RICE_NO_ROOM || report.written != 0) abort();
    if (rice_decode(&setting, 1, NULL, 0, code, 1, &report) != RICE_CODE_ENDS || report.place != 0) abort();
    printf("version %s: no bytes are no samples\n", RICE_VERSION_TEXT);
    return 0;
}
