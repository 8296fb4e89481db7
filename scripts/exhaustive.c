/* Encodes every short list of samples, and decodes every short code and many longer ones, by the library and by libaec. What both
 * return is the same, or differs in a way that has a name here. Counts each of these, and keeps some cases for the two commands.
 * usage: exhaustive RANDOM_CODES CASES */
#include <inttypes.h>
#include <libaec.h>
#include <rice.h>
#include <stdio.h>
#include <stdlib.h>
#include <string.h>

enum { BLOCK = 8, MOST_SAMPLES = 17, ROOM = 1 << 15 };

/* What may come of a case. docs/COMPATIBILITY.md has each difference. */
enum outcome { SAME_CODE, NO_SAMPLES, SAME_SAMPLES, ZEROS, CUT, DAMAGED, BOTH_REFUSE, OUTCOMES };

static const char *const names[] = {
    "lists: the same code",
    "lists: no samples, of which they write a byte",
    "codes: the same samples",
    "codes: zeros at the end, of which they make the reference sample of one more block",
    "codes: cut, refused here, and there what there is of the last block",
    "codes: damaged, refused here, and taken there",
    "codes: damaged, refused here and there",
};

/* Of each outcome one case in so many is kept. */
static const uint64_t steps[] = {30011, 1, 1009, 5, 20011, 2003, 601};

static uint64_t counts[OUTCOMES];
static FILE *kept;

/* Bytes that a call has written, and how it ended. */
struct answer {
    int status;
    size_t size;
    uint8_t bytes[ROOM];
};

static struct answer ours, theirs, back;

static void print_bytes(FILE *file, const uint8_t *bytes, size_t size) {
    if (size == 0) fputs("-", file);
    for (size_t i = 0; i < size; i++) fprintf(file, "%02x", bytes[i]);
}

/* Writes a case: what is done, options of the command, the input, what the library makes of it with its status and place, and
 * what libaec does. */
static void write_case(FILE *file, const char *what, const struct rice_setting *s, const uint8_t *in, size_t size, uint64_t place) {
    fprintf(file, "%s -n %u -j %u -r %u%s%s ", what, s->bits, s->block, s->interval, s->preprocess ? "" : " -N", s->pad ? " -p" : "");
    print_bytes(file, in, size);
    fprintf(file, " %d %" PRIu64 " ", ours.status, place);
    print_bytes(file, ours.bytes, ours.size);
    fprintf(file, " %d ", theirs.status);
    print_bytes(file, theirs.bytes, theirs.size);
    fputc('\n', file);
}

/* Counts an outcome, and keeps some of its cases. */
static void count(enum outcome outcome, const char *what, const struct rice_setting *s, const uint8_t *in, size_t size, uint64_t place) {
    if (counts[outcome]++ % steps[outcome] == 0) write_case(kept, what, s, in, size, place);
}

static void fail(const char *why, const char *what, const struct rice_setting *s, const uint8_t *in, size_t size) {
    printf("exhaustive: %s: ", why);
    write_case(stdout, what, s, in, size, 0);
    exit(1);
}

static struct aec_stream stream(const struct rice_setting *s, const uint8_t *in, size_t size, struct answer *out, size_t room) {
    return (struct aec_stream){.next_in = in, .avail_in = size, .next_out = out->bytes, .avail_out = room,
        .bits_per_sample = s->bits, .block_size = s->block, .rsi = s->interval,
        .flags = (s->preprocess ? AEC_DATA_PREPROCESS : 0) | (s->pad ? AEC_PAD_RSI : 0)};
}

static void encode_there(const struct rice_setting *s, const uint8_t *in, size_t size, struct answer *out) {
    struct aec_stream a = stream(s, in, size, out, ROOM);
    out->status = aec_buffer_encode(&a);
    out->size = a.total_out;
}

static void decode_there(const struct rice_setting *s, const uint8_t *in, size_t size, struct answer *out, size_t room) {
    struct aec_stream a = stream(s, in, size, out, room);
    out->status = aec_buffer_decode(&a);
    out->size = out->status == AEC_OK ? a.total_out : 0; // what it counts of a code that it refuses is not there
}

/* Whether both decode a code to these samples, each of one byte. */
static bool comes_back(const struct rice_setting *s, const struct answer *code, const uint8_t *samples, size_t many) {
    struct rice_report report;
    back.status = (int)rice_decode(s, many, code->bytes, code->size, back.bytes, many, &report);
    if (back.status != RICE_DONE || report.written != many || memcmp(back.bytes, samples, many)) return false;
    decode_there(s, code->bytes, code->size, &back, many);
    return back.status == AEC_OK && back.size == many && !memcmp(back.bytes, samples, many);
}

static void try_list(const struct rice_setting *s, const uint8_t *samples, size_t many) {
    struct rice_report report;
    ours.status = (int)rice_encode(s, samples, many, ours.bytes, ROOM, &report);
    ours.size = report.written;
    encode_there(s, samples, many, &theirs);
    if (ours.status != RICE_DONE || theirs.status != AEC_OK) fail("a list is refused", "encode", s, samples, many);
    if (!comes_back(s, &ours, samples, many)) fail("our code does not come back", "encode", s, samples, many);
    if (!comes_back(s, &theirs, samples, many)) fail("their code does not come back", "encode", s, samples, many);
    bool same = ours.size == theirs.size && !memcmp(ours.bytes, theirs.bytes, ours.size);
    if (!same && (many > 0 || ours.size > 0 || theirs.size != 1)) fail("another code", "encode", s, samples, many);
    count(same ? SAME_CODE : NO_SAMPLES, "encode", s, samples, many, report.place);
}

/* Every list of up to `most` samples. */
static void try_lists(const struct rice_setting *s, size_t most) {
    uint8_t samples[MOST_SAMPLES] = {0};
    for (size_t many = 0; many <= most; many++) {
        for (uint64_t number = 0; number >> (s->bits * many) == 0; number++) {
            for (size_t i = 0; i < many; i++) samples[i] = (uint8_t)(number >> (s->bits * i) & ((1u << s->bits) - 1));
            try_list(s, samples, many);
        }
    }
}

/* Whether one more sample is there, a 0, and all that is here comes before it. */
static bool is_a_zero_more(void) {
    return theirs.size == ours.size + 1 && theirs.bytes[ours.size] == 0;
}

/* What the two have made of a code, or OUTCOMES where that has no name. Where they take it, what is here comes first there. */
static enum outcome outcome_of_code(void) {
    if (theirs.status == AEC_DATA_ERROR) return ours.status == RICE_DONE ? OUTCOMES : BOTH_REFUSE;
    if (theirs.status != AEC_OK || ours.size > theirs.size || memcmp(ours.bytes, theirs.bytes, ours.size)) return OUTCOMES;
    switch (ours.status) {
    case RICE_DONE: return ours.size == theirs.size ? SAME_SAMPLES : is_a_zero_more() ? ZEROS : OUTCOMES;
    case RICE_CODE_ENDS: return theirs.size - ours.size < BLOCK ? CUT : OUTCOMES;
    case RICE_RESIDUAL_TOO_LARGE: return DAMAGED;
    default: return OUTCOMES;
    }
}

static void try_code(const struct rice_setting *s, const uint8_t *code, size_t size) {
    struct rice_report report;
    ours.status = (int)rice_decode_all(s, code, size, ours.bytes, ROOM, &report);
    ours.size = report.written;
    decode_there(s, code, size, &theirs, ROOM);
    enum outcome outcome = outcome_of_code();
    if (outcome == OUTCOMES) fail("a difference without a name", "decode", s, code, size);
    count(outcome, "decode", s, code, size, report.place);
}

/* Every code of up to two bytes. */
static void try_codes(const struct rice_setting *s) {
    try_code(s, (const uint8_t *)"", 0);
    for (uint32_t number = 0; number < 1 << 8; number++) try_code(s, (uint8_t[]){(uint8_t)number}, 1);
    for (uint32_t number = 0; number < 1 << 16; number++) try_code(s, (uint8_t[]){(uint8_t)(number >> 8), (uint8_t)number}, 2);
}

/* Random codes of three to five bytes. */
static void try_random_codes(const struct rice_setting *settings, size_t many, uint64_t codes) {
    uint64_t seed = 0x9e3779b97f4a7c15u;
    for (uint64_t i = 0; i < codes; i++) {
        uint8_t code[8];
        seed ^= seed << 7;
        seed ^= seed >> 9;
        memcpy(code, &seed, sizeof code);
        try_code(&settings[i % many], code, 3 + code[7] % 3);
    }
}

int main(int argc, char **argv) {
    if (argc != 3 || !(kept = fopen(argv[2], "w"))) return 2;
    static const uint32_t bits[] = {1, 2, 8};
    struct rice_setting settings[3 * 8];
    for (uint32_t i = 0; i < 3 * 8; i++) {
        settings[i] = (struct rice_setting){.bits = bits[i % 3], .block = BLOCK, .interval = 1 + i / 3 % 2, .preprocess = i / 6 % 2, .pad = i / 12};
        if (settings[i].bits < 8 && !settings[i].pad) try_lists(&settings[i], settings[i].bits == 1 ? 17 : 9);
        try_codes(&settings[i]);
    }
    try_random_codes(settings, 3 * 8, strtoull(argv[1], NULL, 10));
    if (fclose(kept)) return 2;
    for (int i = 0; i < OUTCOMES; i++) printf("%9" PRIu64 "  %s\n", counts[i], names[i]);
    return 0;
}
