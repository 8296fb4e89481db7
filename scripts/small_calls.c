/* A program with some calls of the library, to measure its size: ENCODE, DECODE, FEED or DRAIN, or none of them. */
#include <rice.h>

static uint8_t samples[1 << 12], code[1 << 13];
static struct rice_setting setting = {16, 16, 128, false, false, false, true, false, false};
static struct rice_report report;

int main(int argc, char **argv) {
    uint32_t status = (uint32_t)argc;
    setting.is_signed = argv[0] == NULL;
#ifdef ENCODE
    status += rice_encode(&setting, samples, sizeof samples, code, sizeof code, &report);
#endif
#ifdef DECODE
    status += rice_decode(&setting, 1 << 11, code, sizeof code, samples, sizeof samples, &report);
#endif
#ifdef FEED
    struct rice_feed feed = {0};
    status += rice_begin(&setting, &feed);
    status += rice_push(&feed, samples, sizeof samples, code, sizeof code, &report);
    status += rice_finish(&feed, samples, 0, code, sizeof code, &report);
#endif
#ifdef DRAIN
    struct rice_drain drain = {0};
    status += rice_open(&setting, &drain);
    status += rice_pull(&drain, code, sizeof code, samples, sizeof samples, &report);
#endif
    return (int)(status + samples[argc] + code[argc] + report.samples);
}
