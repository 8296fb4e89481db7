/* Codes blocks of every even size, by the library and by libaec. Codes of 160 settings must have the length and the hash that another
 * coder gave, and decode to the same samples. Then both code samples of random settings, and each reads the code of the other.
 * usage: any_block ROWS SETTINGS */
#include <libaec.h>
#include <rice.h>
#include <stdio.h>
#include <stdlib.h>
#include <string.h>

enum { ROW_SAMPLES = 900, MOST_SAMPLES = 6000, ROOM = 1 << 16 };

static uint8_t input[4 * MOST_SAMPLES], code[ROOM], their_code[ROOM], back[4 * MOST_SAMPLES];

static void fail(const char *why, const struct rice_setting *s, size_t samples) {
    printf("any_block: %s: -n %u -j %u -r %u%s%s%s%s%s, %zu samples\n", why, s->bits, s->block, s->interval,
           s->is_signed ? " -s" : "", s->msb ? " -m" : "", s->three ? " -3" : "", s->preprocess ? "" : " -N", s->pad ? " -p" : "",
           samples);
    exit(1);
}

/* Spells a number at `bytes`, in as many bytes as a sample has. */
static void spell(const struct rice_setting *s, uint32_t number, uint8_t *bytes) {
    uint32_t width = rice_sample_width(s);
    for (uint32_t i = 0; i < width; i++) bytes[s->msb ? width - 1 - i : i] = (uint8_t)(number >> (8 * i));
}

/* The samples of the rows: small steps, seldom a step to anywhere, and places where nothing changes. */
static void make_row(const struct rice_setting *s, uint32_t state) {
    uint32_t last = 0, quiet = 0, width = rice_sample_width(s);
    for (uint32_t i = 0; i < ROW_SAMPLES; i++) {
        state = state * 1103515245 + 12345;
        if (quiet > 0) {
            quiet--;
        } else {
            if ((state >> 16) % 50 == 0) quiet = (state >> 8) % 300;
            last = (state >> 28) % 16 ? (last + (state >> 20) % 9) % (1u << s->bits) : state >> (32 - s->bits);
        }
        spell(s, last, &input[width * i]);
    }
}

static uint32_t hash_of(const uint8_t *bytes, size_t size) {
    uint32_t hash = 2166136261;
    for (size_t i = 0; i < size; i++) hash = (hash ^ bytes[i]) * 16777619;
    return hash;
}

/* Encodes the samples of the input, and returns the bytes of code. */
static size_t encode_here(const struct rice_setting *s, size_t samples) {
    struct rice_report report;
    if (rice_encode(s, input, samples * rice_sample_width(s), code, ROOM, &report) != RICE_DONE) fail("not encoded", s, samples);
    if (report.written > rice_code_room(s, samples)) fail("longer than its bound", s, samples);
    if (report.steps > rice_step_bound(s, samples)) fail("more work than its bound", s, samples);
    return report.written;
}

/* Whether a code gives the samples of the input. */
static bool comes_back_here(const struct rice_setting *s, const uint8_t *from, size_t size, size_t samples) {
    struct rice_report report;
    size_t bytes = samples * rice_sample_width(s);
    return rice_decode(s, samples, from, size, back, bytes, &report) == RICE_DONE && !memcmp(back, input, bytes);
}

/* Each even size in five settings, against the lengths and hashes of the file. */
static size_t try_rows(FILE *file) {
    char line[200];
    size_t rows = 0;
    while (fgets(line, sizeof line, file)) {
        struct rice_setting s = {.any_block = true};
        unsigned preprocess, pad, length, hash;
        if (line[0] == '#') continue;
        if (sscanf(line, "%u %u %u %u %u %u %u", &s.block, &s.bits, &s.interval, &preprocess, &pad, &length, &hash) != 7) exit(2);
        s.preprocess = preprocess;
        s.pad = pad;
        make_row(&s, 10 * s.block + (uint32_t)(rows % 5));
        size_t size = encode_here(&s, ROW_SAMPLES);
        if (size != length || hash_of(code, size) != hash) fail("another code than the row's", &s, ROW_SAMPLES);
        if (!comes_back_here(&s, code, size, ROW_SAMPLES)) fail("the row's samples don't come back", &s, ROW_SAMPLES);
        rows++;
    }
    return rows;
}

static uint64_t seed = 0x9e3779b97f4a7c15u;

/* A random number below `limit`. */
static uint32_t below(uint32_t limit) {
    seed ^= seed << 7;
    seed ^= seed >> 9;
    return (uint32_t)((seed >> 32) * limit >> 32);
}

/* A random setting. Signed samples fill their bytes, since libaec has others with their unused bits 0. */
static struct rice_setting some_setting(void) {
    static const uint32_t bits[] = {1, 2, 3, 4, 7, 8, 9, 12, 16, 17, 20, 24, 25, 32};
    static const uint32_t intervals[] = {1, 2, 3, 5, 8, 16, 63, 64, 65, 128, 130, 256, 1000};
    struct rice_setting s = {.bits = bits[below(14)], .block = 2 + 2 * below(32), .interval = intervals[below(13)],
        .msb = below(2), .three = below(2), .preprocess = below(4) > 0, .pad = below(8) == 0, .any_block = true};
    s.is_signed = 8 * rice_sample_width(&s) == s.bits && below(2);
    return s;
}

/* Samples of one of seven kinds: noise, small steps, steps and places of rest, sparse ones, zeros, waves, or noise of few bits. */
static void make_samples(const struct rice_setting *s, size_t samples) {
    uint32_t kind = below(7), width = rice_sample_width(s), mask = (uint32_t)((1ull << s->bits) - 1);
    uint32_t few = below(s->bits) + 1, last = 0, quiet = 0;
    for (size_t i = 0; i < samples; i++) {
        switch (kind) {
        case 0: last = below(UINT32_MAX); break;
        case 1: last += below(5) - 2; break;
        case 2: last += quiet ? 0 : below(3), quiet = quiet ? quiet - 1 : below(30) ? 0 : below(600); break;
        case 3: last = below(40) ? 0 : below(UINT32_MAX); break;
        case 4: break;
        case 5: last = (uint32_t)((i % 200 < 100 ? i % 100 : 100 - i % 100) * 3); break;
        default: last = below(UINT32_MAX) >> (32 - few); break;
        }
        spell(s, last & mask, &input[width * i]);
    }
}

static struct aec_stream stream_of(const struct rice_setting *s, const uint8_t *in, size_t size, uint8_t *out, size_t room) {
    return (struct aec_stream){.next_in = in, .avail_in = size, .next_out = out, .avail_out = room, .bits_per_sample = s->bits,
        .block_size = s->block, .rsi = s->interval,
        .flags = AEC_NOT_ENFORCE | (s->is_signed ? AEC_DATA_SIGNED : 0) | (s->msb ? AEC_DATA_MSB : 0)
            | (s->three ? AEC_DATA_3BYTE : 0) | (s->preprocess ? AEC_DATA_PREPROCESS : 0) | (s->pad ? AEC_PAD_RSI : 0)};
}

static size_t encode_there(const struct rice_setting *s, size_t samples) {
    struct aec_stream a = stream_of(s, input, samples * rice_sample_width(s), their_code, ROOM);
    if (aec_buffer_encode(&a) != AEC_OK) fail("not encoded by libaec", s, samples);
    return a.total_out;
}

static bool comes_back_there(const struct rice_setting *s, const uint8_t *from, size_t size, size_t samples) {
    size_t bytes = samples * rice_sample_width(s);
    struct aec_stream a = stream_of(s, from, size, back, bytes);
    return aec_buffer_decode(&a) == AEC_OK && a.total_out == bytes && !memcmp(back, input, bytes);
}

/* Samples of one random setting. libaec's encoder pads no interval, so a padded code is given to its decoder alone. */
static bool try_samples(const struct rice_setting *s, size_t samples) {
    make_samples(s, samples);
    size_t size = encode_here(s, samples);
    if (!comes_back_here(s, code, size, samples)) fail("our samples don't come back", s, samples);
    if (!comes_back_there(s, code, size, samples)) fail("libaec reads another code", s, samples);
    if (s->pad) return false;
    size_t their_size = encode_there(s, samples);
    if (their_size != size) fail("another length than libaec's", s, samples);
    if (!comes_back_here(s, their_code, their_size, samples)) fail("libaec's code is not read", s, samples);
    return !memcmp(code, their_code, size);
}

int main(int argc, char **argv) {
    FILE *file = argc == 3 ? fopen(argv[1], "r") : NULL;
    if (!file) return 2;
    size_t rows = try_rows(file), settings = strtoul(argv[2], NULL, 10), same = 0;
    fclose(file);
    if (rows != 160) fail("rows are missing", &(struct rice_setting){0}, rows);
    for (size_t i = 0; i < settings; i++) {
        struct rice_setting s = some_setting();
        same += try_samples(&s, 1 + below(below(4) ? 500 : MOST_SAMPLES));
    }
    printf("any_block: %zu rows, and %zu random settings with libaec, %zu of them the same bytes\n", rows, settings, same);
    return 0;
}
