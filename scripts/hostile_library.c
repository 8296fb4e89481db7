/* Gives the library samples under each setting, and checks that decoding returns them. Then it gives damaged, cut, spliced and random codes
 * under settings of all kinds, and samples of random bytes with too little room. Each buffer ends before a page that can't be touched, or
 * begins after one, and has guard bytes on its other side. Writes every tenth answer of a decoding to a file, to compare with the command.
 * usage: hostile_library CALLS ANSWERS */
#define _GNU_SOURCE
#include <inttypes.h>
#include <rice.h>
#include <stdio.h>
#include <stdlib.h>
#include <string.h>
#include <sys/mman.h>

enum { PAGE = 4096, AREA = 1 << 18, GUARD = 64, FILL = 0xa5, MOST_SAMPLES = 700, STATUSES = 11 };

static uint64_t seed = 0x9e3779b97f4a7c15u;
static uint32_t next(void) {
    seed ^= seed << 7;
    seed ^= seed >> 9;
    return (uint32_t)(seed >> 16);
}
static uint32_t below(uint32_t n) { return next() % n; }

static void fail(const char *what, uint64_t call) {
    printf("hostile-library: call %" PRIu64 ": %s\n", call, what);
    exit(1);
}

/* Memory between two pages that can't be touched. */
static uint8_t *area(void) {
    uint8_t *pages = mmap(NULL, AREA + 2 * PAGE, PROT_NONE, MAP_PRIVATE | MAP_ANONYMOUS, -1, 0);
    if (pages == MAP_FAILED || mprotect(pages + PAGE, AREA, PROT_READ | PROT_WRITE)) exit(2);
    return pages + PAGE;
}

/* A buffer of so many bytes at the end or the beginning of an area. */
static uint8_t *place(uint8_t *memory, size_t size, bool at_end) { return at_end ? memory + AREA - size : memory; }

/* An output, filled, with guard bytes on the side where no page guards it. */
static uint8_t *output(uint8_t *memory, size_t size, bool at_end) {
    uint8_t *bytes = place(memory, size, at_end);
    memset(bytes, FILL, size);
    memset(at_end ? bytes - GUARD : bytes + size, FILL, GUARD);
    return bytes;
}

static bool is_filled(const uint8_t *bytes, size_t size) {
    for (size_t i = 0; i < size; i++) if (bytes[i] != FILL) return false;
    return true;
}

/* Whether all is as it was after what was written, and in the guard bytes. */
static bool is_kept(const uint8_t *bytes, size_t size, size_t written, bool at_end) {
    return written <= size && is_filled(bytes + written, size - written) && is_filled(at_end ? bytes - GUARD : bytes + size, GUARD);
}

static struct rice_setting any_setting(void) {
    static const uint32_t intervals[] = {1, 2, 3, 63, 64, 65, 128, 4096};
    struct rice_setting s = {1 + below(32), 8u << below(4), intervals[below(8)], below(2), below(2), below(2), below(4), below(4) == 0, below(4) == 0};
    if (s.any_block) s.block = 2 + 2 * below(32);
    return s;
}

/* Writes samples of some kind: in range, or any bytes. */
static void any_samples(const struct rice_setting *s, uint8_t *bytes, uint32_t count) {
    uint32_t width = rice_sample_width(s), kind = below(4), mask = 0xffffffffu >> (32 - s->bits), x = next() & mask;
    for (uint32_t i = 0; i < count; i++) {
        if (kind == 0) x = next() & mask;
        if (kind == 1) x = (x + below(5)) & mask;
        if (kind == 2) x = below(40) ? 0 : next() & mask;
        uint32_t y = s->is_signed && (x >> (s->bits - 1)) ? x | ~mask : x;
        for (uint32_t b = 0; b < width; b++) bytes[i * width + (s->msb ? width - 1 - b : b)] = (uint8_t)(y >> (8 * b));
    }
}

static uint64_t statuses[2][STATUSES];
static uint8_t *in, *out;
static uint8_t code[AREA], other[AREA];

/* Encodes to a buffer of so many bytes, and checks what was left alone. */
static uint32_t encode(uint64_t call, const struct rice_setting *s, const uint8_t *samples, size_t size, size_t room, struct rice_report *report, uint8_t **bytes) {
    bool at_end = below(2);
    uint8_t *input = place(in, size, below(2));
    memmove(input, samples, size);
    *bytes = output(out, room, at_end);
    uint32_t status = rice_encode(s, input, size, *bytes, room, report);
    if (status >= STATUSES) fail("no status", call);
    if (!is_kept(*bytes, room, report->written, at_end)) fail("encoding wrote elsewhere", call);
    if (status == RICE_NO_ROOM && report->written != room) fail("encoding left room", call);
    statuses[0][status]++;
    return status;
}

/* Whether a code of so many samples gives them back. */
static bool comes_back(const struct rice_setting *s, const uint8_t *bytes, size_t written, const uint8_t *samples, uint32_t count) {
    static uint8_t back[4 * MOST_SAMPLES];
    struct rice_report report;
    size_t size = count * rice_sample_width(s);
    uint32_t status = rice_decode(s, count, bytes, written, back, size, &report);
    return status == RICE_DONE && report.written == size && memcmp(back, samples, size) == 0;
}

/* Makes the code of some samples, and tries it with too little room. Returns the code's length. */
static size_t good_code(uint64_t call, const struct rice_setting *s, uint32_t count, uint8_t *to) {
    static uint8_t samples[4 * MOST_SAMPLES];
    struct rice_report report;
    uint8_t *bytes;
    size_t size = count * rice_sample_width(s), room = rice_code_room(s, count);
    any_samples(s, samples, count);
    if (encode(call, s, samples, size, room, &report, &bytes) != RICE_DONE) fail("samples are refused", call);
    size_t written = report.written;
    if (!comes_back(s, bytes, written, samples, count)) fail("other samples come back", call);
    memcpy(to, bytes, written);
    if (written > 0) {
        size_t less = below((uint32_t)written);
        if (encode(call, s, samples, size, less, &report, &bytes) != RICE_NO_ROOM || memcmp(bytes, to, less)) fail("too little room", call);
    }
    return written;
}

/* Makes a code for each width, block size and choice. */
static void every_setting(void) {
    for (uint32_t bits = 1; bits <= 32; bits++) {
        for (uint32_t i = 0; i < 4 * 32; i++) {
            bool pad = i & 16;
            struct rice_setting s = {bits, 8u << i / 32, pad ? 1 : 2, i & 1, i & 2, i & 4, i & 8, pad, false};
            good_code(0, &s, 101, code);
        }
    }
}

/* Encodes random bytes into any room. */
static void encode_bytes(uint64_t call, const struct rice_setting *s) {
    static uint8_t samples[1000];
    struct rice_report report;
    uint8_t *bytes;
    size_t size = below(1000);
    for (size_t i = 0; i < size; i++) samples[i] = (uint8_t)next();
    encode(call, s, samples, size, below(200), &report, &bytes);
}

/* A code: of samples, damaged, cut, spliced, or random bytes. */
static size_t any_code(uint64_t call, const struct rice_setting *s, uint32_t count) {
    uint32_t kind = below(6);
    if (kind == 0) {
        size_t size = below(300);
        for (size_t i = 0; i < size; i++) code[i] = (uint8_t)(next() & (below(3) ? 0xff : next()));
        return size;
    }
    size_t size = good_code(call, s, count, code);
    if (kind == 1 || size == 0) return size;
    if (kind == 2) return below((uint32_t)size);
    if (kind == 3) {
        struct rice_setting t = any_setting();
        size_t more = good_code(call, &t, below(100), other), at = below((uint32_t)size);
        memcpy(code + at, other, more);
        return at + more;
    }
    for (uint32_t flips = 1 + below(8); flips > 0; flips--) code[below((uint32_t)size)] ^= (uint8_t)(1u << below(8));
    return size;
}

/* Writes an answer down: the setting, the number asked for or -1, the status, and what was written. The command takes the
 * standard's block sizes alone. */
static void keep(FILE *answers, const struct rice_setting *s, int64_t asked, size_t size, uint32_t status, const struct rice_report *r, const uint8_t *bytes) {
    if (s->any_block) return;
    fprintf(answers, "%u %u %u %d %d %d %d %d %" PRId64 " %u %" PRIu64 " %zu %" PRIu64 "\n", s->bits, s->block, s->interval, s->is_signed, s->msb, s->three, s->preprocess, s->pad, asked, status, r->place, size, r->written);
    fwrite(code, 1, size, answers);
    fwrite(bytes, 1, r->written, answers);
}

/* Decodes any code, with a count or without. */
static void decode(uint64_t call, FILE *answers) {
    struct rice_setting s = any_setting();
    struct rice_report report;
    uint32_t count = below(MOST_SAMPLES), status;
    size_t size = any_code(call, &s, count), width = rice_sample_width(&s);
    if (below(4) == 0) count = below(3 * MOST_SAMPLES);
    bool counted = below(4), full = below(8), at_end = below(2);
    size_t room = counted ? count * width : (AREA - GUARD) / 2;
    if (!full) room = below((uint32_t)room + 1);
    uint8_t *input = place(in, size, below(2)), *bytes = output(out, room, at_end);
    memcpy(input, code, size);
    if (counted) status = rice_decode(&s, count, input, size, bytes, room, &report);
    else status = rice_decode_all(&s, input, size, bytes, room, &report);
    if (status >= STATUSES) fail("no status", call);
    if (!is_kept(bytes, room, report.written, at_end)) fail("decoding wrote elsewhere", call);
    if (status == RICE_NO_ROOM ? report.written != room : report.written != report.samples * width) fail("another number of bytes", call);
    if (status == RICE_NO_ROOM && counted && full) fail("there was room", call);
    if (counted && report.samples > count) fail("more samples than asked for", call);
    if (status != RICE_DONE && (status < RICE_CODE_ENDS || status > RICE_NO_ROOM)) fail("another status", call);
    if (report.bits > 8 * size) fail("more bits than there are", call);
    if (report.steps < report.bits + report.samples) fail("fewer steps than bits and samples", call);
    if (report.steps > 2 * report.bits + report.samples) fail("more steps than bounded", call);
    statuses[1][status]++;
    if (call % 10 == 0 && status != RICE_NO_ROOM) keep(answers, &s, counted ? (int64_t)count : -1, size, status, &report, bytes);
}

int main(int argc, char **argv) {
    if (argc != 3) return 2;
    uint64_t calls = strtoull(argv[1], NULL, 10);
    FILE *answers = fopen(argv[2], "wb");
    in = area(), out = area();
    if (!answers) return 2;
    every_setting();
    for (uint64_t call = 0; call < calls; call++) {
        decode(call, answers);
        struct rice_setting s = any_setting();
        encode_bytes(call, &s);
    }
    fclose(answers);
    for (int i = 0; i < 2; i++) for (uint32_t status = 0; status < STATUSES; status++) {
        if (statuses[i][status]) printf("%s: %s: %" PRIu64 "\n", i ? "decode" : "encode", rice_status_text(status), statuses[i][status]);
    }
    return 0;
}
