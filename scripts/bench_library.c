/* Encodes and decodes a file of samples by the library and by libaec, alternately. Prints the least CPU times of some runs in seconds:
 * encoding here and there, decoding here and there, and decoding here by rice_pull.
 * usage: bench_library BITS BLOCK INTERVAL PREPROCESS SIGNED THREE FILE */
#define _POSIX_C_SOURCE 200809L
#include <libaec.h>
#include <rice.h>
#include <stdio.h>
#include <stdlib.h>
#include <string.h>
#include <time.h>

enum { RUNS = 5, PIECE = 64 << 10 };

static struct rice_setting setting;
static struct aec_stream stream;
static uint8_t *samples, *code, *other, *back;
static size_t size, room, ours, theirs;

static double now(void) {
    struct timespec t;
    clock_gettime(CLOCK_THREAD_CPUTIME_ID, &t);
    return (double)t.tv_sec + (double)t.tv_nsec * 1e-9;
}

static void encode_here(void) {
    struct rice_report report;
    if (rice_encode(&setting, samples, size, code, room, &report) != RICE_DONE) exit(1);
    ours = report.written;
}

static void decode_here(void) {
    struct rice_report report;
    if (rice_decode(&setting, size / rice_sample_width(&setting), code, ours, back, size, &report) != RICE_DONE) exit(1);
}

static struct aec_stream started(const uint8_t *in, size_t in_size, uint8_t *out, size_t out_size) {
    struct aec_stream s = stream;
    s.next_in = in, s.avail_in = in_size, s.next_out = out, s.avail_out = out_size;
    return s;
}

static void encode_there(void) {
    struct aec_stream s = started(samples, size, other, room);
    if (aec_buffer_encode(&s) != AEC_OK) exit(1);
    theirs = s.total_out;
}

/* Both decode what the library here has coded. */
static void decode_there(void) {
    struct aec_stream s = started(code, ours, back, size);
    if (aec_buffer_decode(&s) != AEC_OK) exit(1);
}

/* Pulls give whole blocks alone. */
static size_t pulled(void) {
    return size / rice_sample_width(&setting) / setting.block * setting.block * rice_sample_width(&setting);
}

static void pull_here(void) {
    struct rice_drain drain = {0};
    struct rice_report report;
    if (rice_open(&setting, &drain) != RICE_DONE) exit(1);
    for (size_t written = 0; written < pulled(); written += report.written) {
        size_t from = drain.bits / 8, left = ours - from;
        rice_pull(&drain, code + from, left < PIECE ? left : PIECE, back + written, pulled() - written, &report);
        if (report.written == 0) exit(1);
    }
}

static double timed(void (*call)(void)) {
    double before = now();
    call();
    return now() - before;
}

int main(int argc, char **argv) {
    if (argc != 8) return 2;
    setting = (struct rice_setting){.bits = atoi(argv[1]), .block = atoi(argv[2]), .interval = atoi(argv[3]), .preprocess = atoi(argv[4]), .is_signed = atoi(argv[5]), .three = atoi(argv[6])};
    stream = (struct aec_stream){.bits_per_sample = setting.bits, .block_size = setting.block, .rsi = setting.interval, .flags = (setting.preprocess ? AEC_DATA_PREPROCESS : 0) | (setting.is_signed ? AEC_DATA_SIGNED : 0) | (setting.three ? AEC_DATA_3BYTE : 0)};
    FILE *file = fopen(argv[7], "rb");
    if (!file || fseek(file, 0, SEEK_END)) return 2;
    size = (size_t)ftell(file);
    rewind(file);
    room = rice_code_room(&setting, size) + 1024;
    samples = malloc(size), code = malloc(room), other = malloc(room), back = malloc(size);
    if (!samples || !code || !other || !back || fread(samples, 1, size, file) != size) return 2;
    memset(code, 0, room), memset(other, 0, room), memset(back, 0, size);
    void (*calls[])(void) = {encode_here, encode_there, decode_here, decode_there, pull_here};
    double best[] = {1e9, 1e9, 1e9, 1e9, 1e9};
    for (int run = 0; run < RUNS; run++) for (int i = 0; i < 5; i++) {
        double time = timed(calls[i]);
        if (time < best[i]) best[i] = time;
        if (i >= 2 && memcmp(samples, back, i == 4 ? pulled() : size)) return 1;
        if (i >= 2) memset(back, 0, size);
    }
    printf("%f %f %f %f %f %zu %zu\n", best[0], best[1], best[2], best[3], best[4], ours, theirs);
    return 0;
}
