/* Gives the library whole, damaged, cut and random codes, in pieces of random lengths, with random room, and from intervals on. The samples
 * of all pulls and their end must be those of rice_decode_all and rice_decode. Each piece and each room ends before a page that can't be
 * touched.
 * usage: hostile_pulls CODES */
#define _GNU_SOURCE
#include <inttypes.h>
#include <rice.h>
#include <stdio.h>
#include <stdlib.h>
#include <string.h>
#include <sys/mman.h>

enum { PAGE = 4096, AREA = 1 << 18, GUARD = 64, FILL = 0xa5, MOST_SAMPLES = 700, STATUSES = 14, MOST_PULLS = 1 << 20 };

static uint64_t seed = 0x9e3779b97f4a7c15u;
static uint32_t next(void) {
    seed ^= seed << 7;
    seed ^= seed >> 9;
    return (uint32_t)(seed >> 16);
}
static uint32_t below(uint32_t n) { return next() % n; }

static void fail(const char *what, uint64_t number) {
    printf("hostile-pulls: code %" PRIu64 ": %s\n", number, what);
    exit(1);
}

/* Memory before a page that can't be touched. */
static uint8_t *area(void) {
    uint8_t *pages = mmap(NULL, AREA + 2 * PAGE, PROT_NONE, MAP_PRIVATE | MAP_ANONYMOUS, -1, 0);
    if (pages == MAP_FAILED || mprotect(pages + PAGE, AREA, PROT_READ | PROT_WRITE)) exit(2);
    return pages + PAGE;
}

static bool is_filled(const uint8_t *bytes, size_t size) {
    for (size_t i = 0; i < size; i++) if (bytes[i] != FILL) return false;
    return true;
}

static struct rice_setting any_setting(void) {
    static const uint32_t intervals[] = {1, 2, 3, 63, 64, 65, 128, 4096};
    bool any_block = below(4) == 0;
    struct rice_setting s = {1 + below(32), any_block ? 2 * (1 + below(32)) : 8u << below(4), intervals[below(8)], below(2), below(2), below(2), below(4), below(4) == 0, any_block};
    return s;
}

/* Writes samples of some kind. */
static void any_samples(const struct rice_setting *s, uint8_t *bytes, uint32_t count) {
    uint32_t width = rice_sample_width(s), kind = below(4), mask = 0xffffffffu >> (32 - s->bits), x = next() & mask;
    for (uint32_t i = 0; i < count; i++) {
        if (kind == 0) x = next() & mask;
        if (kind == 1) x = (x + below(5)) & mask;
        if (kind == 2) x = below(200) ? 0 : next() & mask;
        uint32_t y = s->is_signed && (x >> (s->bits - 1)) ? x | ~mask : x;
        for (uint32_t b = 0; b < width; b++) bytes[i * width + (s->msb ? width - 1 - b : b)] = (uint8_t)(y >> (8 * b));
    }
}

static uint8_t code[AREA], whole[AREA], joined[2 * AREA], samples[4 * MOST_SAMPLES];
static uint8_t *in, *out;
static uint64_t statuses[STATUSES], pulls, places;

/* A code: of samples, cut, damaged, or random bytes. */
static size_t any_code(const struct rice_setting *s) {
    uint32_t kind = below(5), count = 1 + below(MOST_SAMPLES);
    if (kind == 0) {
        size_t size = below(300);
        for (size_t i = 0; i < size; i++) code[i] = (uint8_t)(next() & (below(3) ? 0xff : next()));
        return size;
    }
    struct rice_report report;
    any_samples(s, samples, count);
    if (rice_encode(s, samples, count * rice_sample_width(s), code, sizeof code, &report) != RICE_DONE) exit(2);
    size_t size = report.written;
    if (kind == 1) return size;
    if (kind == 2) return below((uint32_t)size + 1);
    for (uint32_t flips = 1 + below(8); flips > 0; flips--) code[below((uint32_t)size)] ^= (uint8_t)(1u << below(8));
    return size;
}

/* Pulls a piece of so many bytes into so much room, and checks what was left alone. Writes the samples after `written` bytes. */
static uint32_t pull(uint64_t number, struct rice_drain *drain, size_t size, size_t piece, size_t room, size_t written, struct rice_report *report) {
    uint8_t *input = in + AREA - piece, *bytes = out + AREA - room;
    struct rice_drain before = *drain;
    size_t width = rice_sample_width(&drain->setting);
    memcpy(input, code + drain->bits / 8, piece);
    memset(bytes - GUARD, FILL, room + GUARD);
    uint32_t status = rice_pull(drain, input, piece, bytes, room, report);
    pulls++;
    if (status >= STATUSES) fail("no status", number);
    statuses[status]++;
    if (report->written > room || !is_filled(bytes + report->written, room - report->written) || !is_filled(bytes - GUARD, GUARD)) fail("wrote elsewhere", number);
    if (report->written != (drain->samples - before.samples) * width) fail("another number of bytes", number);
    if (drain->bits > 8 * size || drain->bits < before.bits) fail("more bits than there are", number);
    if (report->samples != drain->samples || report->bits != drain->bits || report->steps != drain->steps) fail("another report", number);
    if (status == RICE_NO_ROOM && room - report->written >= drain->setting.block * width) fail("there was room", number);
    memcpy(joined + written, bytes, report->written);
    return status;
}

/* How rice_decode_all ends where a pull ends so and no more code follows. */
static uint32_t ends_as(uint32_t status) {
    if (status == RICE_ONLY_ZEROS) return RICE_DONE;
    return status == RICE_MORE_CODE ? RICE_CODE_ENDS : status;
}

/* Pulls all from where the drain stands, at most `most` samples. Returns the status of the last pull. */
static uint32_t pull_all(uint64_t number, struct rice_drain *drain, size_t size, uint64_t most, size_t *written, struct rice_report *report) {
    size_t block = drain->setting.block * rice_sample_width(&drain->setting), longest = 1 + below(300), least = 1;
    for (uint32_t i = 0; i < MOST_PULLS; i++) {
        size_t left = size - drain->bits / 8, piece = least + below((uint32_t)longest), room = below(8) ? block * (1 + below(4)) + below((uint32_t)block) : below((uint32_t)block);
        if (piece > left) piece = left;
        uint32_t status = pull(number, drain, size, piece, room, *written, report);
        *written += report->written;
        if (drain->samples >= most) return RICE_DONE;
        if (status == RICE_NO_ROOM) continue;
        if (piece == left || (status != RICE_MORE_CODE && status != RICE_ONLY_ZEROS)) return status;
        least = report->written ? 1 : 2 * least + 1;
    }
    fail("no end", number);
    return 0;
}

static void try(uint64_t number) {
    struct rice_setting s = any_setting();
    struct rice_drain drain = {0};
    struct rice_report report, last;
    size_t size = any_code(&s), written = 0, width = rice_sample_width(&s);
    uint32_t end = rice_decode_all(&s, code, size, whole, sizeof whole, &report);
    if (end == RICE_NO_ROOM) return;
    if (rice_open(&s, &drain) != RICE_DONE) fail("not opened", number);
    uint32_t status = pull_all(number, &drain, size, UINT64_MAX, &written, &last);
    if (ends_as(status) != end) fail("another end", number);
    if (written != report.written || memcmp(joined, whole, written)) fail("other samples", number);
    if ((end == RICE_RUN_PAST_SEGMENT || end == RICE_RESIDUAL_TOO_LARGE) && last.place != report.place) fail("another place", number);
    /* with a count */
    uint64_t count = below(2 * MOST_SAMPLES);
    end = rice_decode(&s, count, code, size, whole, sizeof whole, &report);
    if (rice_open(&s, &drain) != RICE_DONE) fail("not opened", number);
    written = 0;
    status = count ? pull_all(number, &drain, size, count, &written, &last) : RICE_DONE;
    if (written > count * width) written = count * width;
    if (status == RICE_ONLY_ZEROS) status = RICE_MORE_CODE;
    if (ends_as(status) != end || written != report.written || memcmp(joined, whole, written)) fail("another answer with a count", number);
    /* from an interval on: as many pulls of a block as there are blocks before it */
    uint32_t skip = below(20);
    size_t block = s.block * width, begin = 0;
    if (rice_open(&s, &drain) != RICE_DONE) fail("not opened", number);
    struct rice_drain at = drain;
    for (uint32_t i = 0; i < 200 && skip > 0; i++) {
        status = pull(number, &drain, size, size - drain.bits / 8, block, 0, &last);
        if (status != RICE_NO_ROOM) break;
        if (drain.block == 0 && drain.run == 0) at = drain, skip--;
    }
    begin = at.samples * width;
    end = rice_decode_all(&s, code, size, whole, sizeof whole, &report);
    if (rice_open_at(&s, at.samples, at.bits, &drain) != RICE_DONE) fail("not opened at an interval", number);
    written = 0;
    status = pull_all(number, &drain, size, UINT64_MAX, &written, &last);
    if (ends_as(status) != end || written != report.written - begin || memcmp(joined, whole + begin, written)) fail("other samples from an interval on", number);
    places += at.samples > 0;
}

int main(int argc, char **argv) {
    if (argc != 2) return 2;
    uint64_t codes = strtoull(argv[1], NULL, 10);
    in = area(), out = area();
    for (uint64_t number = 0; number < codes; number++) try(number);
    for (uint32_t status = 0; status < STATUSES; status++) {
        if (statuses[status]) printf("pull: %s: %" PRIu64 "\n", rice_status_text(status), statuses[status]);
    }
    printf("hostile-pulls: %" PRIu64 " codes, %" PRIu64 " pulls, %" PRIu64 " from an interval inside, none at fault\n", codes, pulls, places);
    return 0;
}
