/* Times libaec's and szlib's calls of the loaded libraries: those of GRIB messages, of HDF5 chunks, and of streams in pieces. For each case
 * it prints the least CPU times of encoding and decoding in some runs, in seconds. All decode what librice codes.
 * usage: bench_compat RUNS */
#define _POSIX_C_SOURCE 200809L
#include <rice.h>
#include <stdio.h>
#include <stdlib.h>
#include <string.h>
#include <szlib.h>
#include <time.h>

enum { MOST = 1 << 22, ROOM = 2 * MOST };

static uint8_t samples[MOST], code[ROOM], out[ROOM];
static size_t size, length, piece;
static struct aec_stream setting;
static SZ_com_t chunk;
static int runs;

static double now(void) {
    struct timespec t;
    clock_gettime(CLOCK_THREAD_CPUTIME_ID, &t);
    return (double)t.tv_sec + (double)t.tv_nsec * 1e-9;
}

static void must(bool fact, const char *what) {
    if (fact) return;
    fprintf(stderr, "bench_compat: %s\n", what);
    exit(1);
}

static size_t least(size_t a, size_t b) {
    return a < b ? a : b;
}

/* A smooth field with noise of some bits. */
static void make(size_t count, uint32_t bits, size_t width, bool msb) {
    uint32_t state = 1, level = 1u << (bits - 1), mask = 0xffffffffu >> (32 - bits), noise = bits > 4 ? bits / 4 : 1;
    for (size_t i = 0; i < count; i++) {
        state = state * 1103515245 + 12345;
        level = (level + (state >> 16) % (1u << noise) - (1u << noise) / 2) & mask;
        for (size_t b = 0; b < width; b++) samples[i * width + (msb ? width - 1 - b : b)] = (uint8_t)(level >> 8 * b);
    }
    size = count * width;
}

static struct aec_stream stream(const uint8_t *in, size_t in_size, uint8_t *to, size_t to_size) {
    struct aec_stream a = setting;
    a.next_in = in, a.avail_in = in_size, a.next_out = to, a.avail_out = to_size;
    return a;
}

static void buffer_encode(void) {
    struct aec_stream a = stream(samples, size, out, ROOM);
    must(aec_buffer_encode(&a) == AEC_OK, "not encoded");
}

static void buffer_decode(void) {
    struct aec_stream a = stream(code, length, out, size);
    must(aec_buffer_decode(&a) == AEC_OK && a.total_out == size, "not decoded");
}

static void chunk_encode(void) {
    size_t room = ROOM;
    must(SZ_BufftoBuffCompress(out, &room, samples, size, &chunk) == SZ_OK, "no chunk");
}

static void chunk_decode(void) {
    size_t room = size;
    must(SZ_BufftoBuffDecompress(out, &room, code, length, &chunk) == SZ_OK && room == size, "no pixels");
}

/* Gives a stream its input and its output in pieces, until it leaves room after the last. */
static void in_pieces(struct aec_stream *a, int (*call)(struct aec_stream *, int), const uint8_t *in, size_t in_size, size_t most) {
    size_t given = 0;
    a->avail_in = a->avail_out = 0;
    while (a->total_out < most && (given < in_size || a->avail_in > 0 || a->avail_out == 0)) {
        if (a->avail_in == 0) {
            a->next_in = in + given, a->avail_in = least(piece, in_size - given);
            given += a->avail_in;
        }
        a->next_out = out + a->total_out, a->avail_out = least(piece, most - a->total_out);
        must(call(a, given == in_size ? AEC_FLUSH : AEC_NO_FLUSH) == AEC_OK, "a piece fails");
    }
}

static void stream_encode(void) {
    struct aec_stream a = setting;
    must(aec_encode_init(&a) == AEC_OK, "no init");
    in_pieces(&a, aec_encode, samples, size, ROOM);
    must(aec_encode_end(&a) == AEC_OK && a.total_out == length, "another code");
}

static void stream_decode(void) {
    struct aec_stream a = setting;
    must(aec_decode_init(&a) == AEC_OK, "no init");
    in_pieces(&a, aec_decode, code, length, size);
    must(aec_decode_end(&a) == AEC_OK && a.total_out == size, "other samples");
}

/* The least time of a call. Short ones are called many times. */
static double timed(void (*call)(void)) {
    double best = 1e9;
    size_t calls = 1 + 200000 / size;
    for (int run = 0; run < runs; run++) {
        double before = now();
        for (size_t i = 0; i < calls; i++) call();
        double time = (now() - before) / (double)calls;
        if (time < best) best = time;
    }
    return best;
}

static void show(const char *group, const char *title, void (*encode)(void), void (*decode)(void)) {
    double encoding = timed(encode);
    decode();
    must(!memcmp(out, samples, size), "other samples");
    printf("%s|%s|%zu|%.9f|%.9f\n", group, title, size, encoding, timed(decode));
}

/* Sets libaec's setting, and codes the samples by librice. */
static void set(uint32_t bits, uint32_t block, uint32_t interval, unsigned flags, const uint8_t *from, size_t bytes) {
    struct rice_setting s = {.bits = bits, .block = block, .interval = interval, .msb = flags & AEC_DATA_MSB, .three = flags & AEC_DATA_3BYTE, .preprocess = true};
    struct rice_report report;
    must(rice_encode(&s, from, bytes, code, ROOM, &report) == RICE_DONE, "not coded");
    length = report.written;
    memset(&setting, 0, sizeof setting);
    setting.bits_per_sample = bits, setting.block_size = block, setting.rsi = interval, setting.flags = flags | AEC_DATA_PREPROCESS;
}

static void grib(size_t points, uint32_t bits) {
    char title[80];
    size_t width = (bits + 7) / 8;
    make(points, bits, width, true);
    set(bits, 32, 128, AEC_DATA_MSB | AEC_DATA_3BYTE, samples, size);
    snprintf(title, sizeof title, "%zu points of %u bits", points, bits);
    show("GRIB", title, buffer_encode, buffer_decode);
}

/* A chunk of rows of pixels. Those of 32 bits are four planes. */
static void hdf5(size_t bytes, uint32_t bits, uint32_t block, uint32_t row) {
    char title[80];
    size_t room = ROOM;
    make(8 * bytes / bits, bits == 32 ? 20 : bits, bits / 8, false);
    chunk = (SZ_com_t){SZ_NN_OPTION_MASK, (int)bits, (int)block, (int)row};
    must(SZ_BufftoBuffCompress(code, &room, samples, size, &chunk) == SZ_OK, "no chunk");
    length = room;
    snprintf(title, sizeof title, "%zu KiB, pixels of %u bits, rows of %u, blocks of %u", bytes / 1024, bits, row, block);
    show("HDF5", title, chunk_encode, chunk_decode);
}

static void pieces(uint32_t bits, uint32_t block, uint32_t interval, size_t bytes) {
    char title[80];
    size_t width = (bits + 7) / 8;
    make((1 << 18) / width, bits, width, false);
    set(bits, block, interval, 0, samples, size);
    piece = bytes;
    snprintf(title, sizeof title, "-n %u -j %u -r %u, pieces of %zu bytes", bits, block, interval, bytes);
    show("stream", title, stream_encode, stream_decode);
}

static void small(uint32_t bits, uint32_t block, uint32_t interval, size_t count) {
    char title[80];
    make(count, bits, (bits + 7) / 8, false);
    set(bits, block, interval, 0, samples, size);
    snprintf(title, sizeof title, "-n %u -j %u -r %u, %zu samples", bits, block, interval, count);
    show("buffer", title, buffer_encode, buffer_decode);
}

int main(int argc, char **argv) {
    if (argc != 2) return 2;
    runs = atoi(argv[1]);
    static const size_t points[] = {6600, 65160, 259920, 1038240}, chunks[] = {4096, 65536, 1048576}, lengths[] = {64, 1024, 65536};
    static const uint32_t bits[] = {8, 12, 16, 24};
    for (int i = 0; i < 4; i++) for (int b = 0; b < 4; b++) grib(points[i], bits[b]);
    for (int i = 0; i < 3; i++) {
        hdf5(chunks[i], 8, 16, 256), hdf5(chunks[i], 16, 32, 256), hdf5(chunks[i], 16, 32, 100), hdf5(chunks[i], 16, 10, 100), hdf5(chunks[i], 32, 16, 256);
    }
    for (int i = 0; i < 3; i++) {
        pieces(8, 8, 2, lengths[i]), pieces(8, 16, 128, lengths[i]), pieces(16, 16, 128, lengths[i]), pieces(16, 32, 128, lengths[i]), pieces(32, 64, 4096, lengths[i]);
    }
    small(8, 8, 2, 64), small(16, 16, 128, 64), small(32, 64, 4096, 64), small(8, 8, 2, 1024), small(16, 32, 128, 1024);
    return 0;
}
