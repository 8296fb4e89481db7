/* Gives both libraries the same settings, samples and codes, whole and in pieces. Compares statuses, reports, feeds, drains and every byte
 * of the caller's memory. Settings may be refused, samples out of range or cut, codes damaged, cut or random, and room too small. Steps
 * are compared only for codes that were decoded whole, since their number is not fixed otherwise.
 * usage: compare_small INPUTS */
#include <inttypes.h>
#include <rice.h>
#include <stdio.h>
#include <stdlib.h>
#include <string.h>

enum { MOST_SAMPLES = 700, ROOM = 1 << 14, FILL = 0xa5, STATUSES = 14, EACH_ROOM = 400 /* of so many inputs, one is coded into each room */ };

uint32_t small_rice_version(void);
uint32_t small_rice_check(const struct rice_setting *setting);
uint32_t small_rice_sample_width(const struct rice_setting *setting);
uint64_t small_rice_code_room(const struct rice_setting *setting, uint64_t samples);
uint32_t small_rice_encode(const struct rice_setting *setting, const uint8_t *samples, size_t samples_size, uint8_t *code, size_t code_size, struct rice_report *report);
uint32_t small_rice_decode(const struct rice_setting *setting, uint64_t count, const uint8_t *code, size_t code_size, uint8_t *samples, size_t samples_size, struct rice_report *report);
uint32_t small_rice_begin(const struct rice_setting *setting, struct rice_feed *feed);
uint32_t small_rice_push(struct rice_feed *feed, const uint8_t *samples, size_t samples_size, uint8_t *code, size_t code_size, struct rice_report *report);
uint32_t small_rice_finish(const struct rice_feed *feed, const uint8_t *samples, size_t samples_size, uint8_t *code, size_t code_size, struct rice_report *report);
uint32_t small_rice_open(const struct rice_setting *setting, struct rice_drain *drain);
uint32_t small_rice_pull(struct rice_drain *drain, const uint8_t *code, size_t code_size, uint8_t *samples, size_t samples_size, struct rice_report *report);

/* What a call of each library has left. */
struct answer {
    uint32_t status;
    struct rice_report report;
    uint8_t bytes[ROOM];
};

static struct answer ours, small;
static uint8_t samples[4 * MOST_SAMPLES + 8], code[ROOM];
static uint64_t number, calls, statuses[STATUSES];
/* How often a kind of block was decoded with each status. */
static uint64_t seldoms[8][STATUSES];

static uint64_t seed = 0x9e3779b97f4a7c15u;
static uint32_t next(void) {
    seed ^= seed << 7;
    seed ^= seed >> 9;
    return (uint32_t)(seed >> 16);
}
static uint32_t below(uint32_t n) { return next() % n; }

static void fail(const char *what) {
    printf("compare-small: input %" PRIu64 ": %s\n", number, what);
    exit(1);
}

static struct rice_setting any_setting(void) {
    static const uint32_t intervals[] = {1, 2, 3, 63, 64, 65, 128, 4096};
    bool any_block = below(4) == 0;
    struct rice_setting s = {1 + below(32), any_block ? 2 * (1 + below(32)) : 8u << below(4), intervals[below(8)], below(2), below(2), below(2), below(4), below(4) == 0, any_block};
    if (below(50) == 0) s.bits = below(40);
    if (below(50) == 0) s.block = below(70);
    if (below(50) == 0) s.interval = below(5000);
    return s;
}

/* Writes samples of some kind. Returns the number of their bytes. */
static size_t any_samples(const struct rice_setting *s, uint32_t count) {
    uint32_t width = rice_sample_width(s), kind = below(4), bits = s->bits > 0 && s->bits < 32 ? s->bits : 32, mask = 0xffffffffu >> (32 - bits), x = next() & mask;
    for (uint32_t i = 0; i < count; i++) {
        if (kind == 0) x = next() & mask;
        if (kind == 1) x = (x + below(5)) & mask;
        if (kind == 2) x = below(200) ? 0 : next() & mask;
        uint32_t y = s->is_signed && x >> (bits - 1) ? x | ~mask : x;
        for (uint32_t b = 0; b < width; b++) samples[i * width + (s->msb ? width - 1 - b : b)] = (uint8_t)(y >> (8 * b));
    }
    size_t size = (size_t)width * count;
    if (size && below(12) == 0) samples[below((uint32_t)size)] ^= 0xff;
    return below(12) == 0 ? size + below(width + 1) : size;
}

/* Fills what the calls write. */
static void begin_call(void) {
    memset(&ours, FILL, sizeof ours);
    memset(&small, FILL, sizeof small);
}

/* Compares what the two calls have left. */
static void compare(const char *call) {
    calls++;
    if (ours.status >= STATUSES) fail("no status");
    statuses[ours.status]++;
    if (ours.status != small.status) fail(call);
    const struct rice_report *a = &ours.report, *b = &small.report;
    if (a->samples != b->samples || a->bits != b->bits || a->written != b->written || a->place != b->place) fail(call);
    if (memcmp(ours.bytes, small.bytes, ROOM)) fail(call);
}

/* Room for an output: mostly enough, and sometimes too little. */
static size_t any_room(size_t enough) {
    size_t room = below(4) ? enough : below((uint32_t)enough + 1);
    return room < ROOM ? room : ROOM;
}

static void compare_settings(const struct rice_setting *s) {
    uint64_t count = below(3) ? below(100000) : (uint64_t)next() << below(32);
    if (rice_version() != small_rice_version()) fail("rice_version");
    if (rice_check(s) != small_rice_check(s)) fail("rice_check");
    if (rice_sample_width(s) != small_rice_sample_width(s)) fail("rice_sample_width");
    if (rice_code_room(s, count) != small_rice_code_room(s, count)) fail("rice_code_room");
}

/* Encodes at once. Returns the bytes of code, if all was done. */
static size_t compare_encode(const struct rice_setting *s, size_t size) {
    size_t room = any_room(ROOM);
    begin_call();
    ours.status = rice_encode(s, samples, size, ours.bytes, room, &ours.report);
    small.status = small_rice_encode(s, samples, size, small.bytes, room, &small.report);
    compare("rice_encode");
    if (ours.status != RICE_DONE) return 0;
    memcpy(code, ours.bytes, ours.report.written);
    return ours.report.written;
}

/* Encodes into each room, from none to enough, and the bytes up to each: where output or input ends, whole segments before it are written. */
static void compare_each_encode(const struct rice_setting *s, size_t size) {
    begin_call();
    ours.status = rice_encode(s, samples, size, ours.bytes, ROOM, &ours.report);
    for (size_t room = 0, most = ours.report.written; room <= most; room++) {
        begin_call();
        ours.status = rice_encode(s, samples, size, ours.bytes, room, &ours.report);
        small.status = small_rice_encode(s, samples, size, small.bytes, room, &small.report);
        compare("rice_encode into each room");
    }
    for (size_t end = 0; end < size; end++) {
        begin_call();
        ours.status = rice_encode(s, samples, end, ours.bytes, ROOM, &ours.report);
        small.status = small_rice_encode(s, samples, end, small.bytes, ROOM, &small.report);
        compare("rice_encode of the first bytes");
    }
}

static bool are_same_seams(const struct rice_feed *a, const struct rice_feed *b) {
    return a->samples == b->samples && a->bits == b->bits && a->previous == b->previous && a->start == b->start && a->waiting == b->waiting && a->waiting_bits == b->waiting_bits;
}

/* Encodes in pieces that end anywhere. */
static void compare_feeds(const struct rice_setting *s, size_t size) {
    struct rice_feed a, b;
    memset(&a, FILL, sizeof a), memset(&b, FILL, sizeof b);
    uint32_t status = rice_begin(s, &a);
    if (status != small_rice_begin(s, &b)) fail("rice_begin");
    if (status == RICE_DONE ? !are_same_seams(&a, &b) : memcmp(&a, &b, sizeof a)) fail("what rice_begin begins");
    if (status != RICE_DONE) return;
    size_t width = rice_sample_width(s), end = 0, room;
    for (uint32_t pieces = below(5); pieces > 0; pieces--) {
        size_t begin = a.samples * width;
        end = begin + below((uint32_t)(size - begin) + 1);
        room = any_room(ROOM);
        begin_call();
        ours.status = rice_push(&a, samples + begin, end - begin, ours.bytes, room, &ours.report);
        small.status = small_rice_push(&b, samples + begin, end - begin, small.bytes, room, &small.report);
        compare("rice_push");
        if (!are_same_seams(&a, &b)) fail("the feed after rice_push");
    }
    size_t begin = a.samples * width;
    room = any_room(ROOM);
    begin_call();
    ours.status = rice_finish(&a, samples + begin, size - begin, ours.bytes, room, &ours.report);
    small.status = small_rice_finish(&b, samples + begin, size - begin, small.bytes, room, &small.report);
    compare("rice_finish");
}

/* Damages the code, cuts it, or takes another. Returns the number of its bytes. */
static size_t any_code(size_t size) {
    uint32_t kind = below(4);
    if (size == 0 || kind == 0) {
        size = below(300);
        for (size_t i = 0; i < size; i++) code[i] = (uint8_t)(next() & (below(3) ? 0xff : next()));
        return size;
    }
    if (kind == 1) return below((uint32_t)size + 1);
    if (kind == 2) for (uint32_t flips = 1 + below(8); flips > 0; flips--) code[below((uint32_t)size)] ^= (uint8_t)(1u << below(8));
    return size;
}

static void compare_decode(const struct rice_setting *s, size_t size) {
    uint64_t count = below(4) ? below(2 * MOST_SAMPLES) : next();
    size_t room = any_room(ROOM);
    begin_call();
    ours.status = rice_decode(s, count, code, size, ours.bytes, room, &ours.report);
    small.status = small_rice_decode(s, count, code, size, small.bytes, room, &small.report);
    compare("rice_decode");
    if (ours.status == RICE_DONE && ours.report.steps != small.report.steps) fail("the steps of rice_decode");
}

/* Decodes into each room, from none to enough: where the output fails at a byte, the blocks before it are written. */
static void compare_each_room(const struct rice_setting *s, size_t size) {
    begin_call();
    ours.status = rice_decode(s, MOST_SAMPLES, code, size, ours.bytes, ROOM, &ours.report);
    for (size_t room = 0, most = ours.report.written; room <= most; room++) {
        begin_call();
        ours.status = rice_decode(s, MOST_SAMPLES, code, size, ours.bytes, room, &ours.report);
        small.status = small_rice_decode(s, MOST_SAMPLES, code, size, small.bytes, room, &small.report);
        compare("rice_decode into each room");
    }
}

static bool are_same_stands(const struct rice_drain *a, const struct rice_drain *b) {
    return a->samples == b->samples && a->bits == b->bits && a->previous == b->previous && a->block == b->block && a->run == b->run;
}

/* Decodes in pieces, with any room. */
static void compare_drains(const struct rice_setting *s, size_t size) {
    struct rice_drain a, b;
    memset(&a, FILL, sizeof a), memset(&b, FILL, sizeof b);
    uint32_t status = rice_open(s, &a);
    if (status != small_rice_open(s, &b)) fail("rice_open");
    if (status == RICE_DONE ? !are_same_stands(&a, &b) : memcmp(&a, &b, sizeof a)) fail("what rice_open opens");
    if (status != RICE_DONE) return;
    uint32_t block = s->block * rice_sample_width(s);
    for (uint32_t pulls = below(30); pulls > 0; pulls--) {
        size_t at = a.bits / 8, piece = below((uint32_t)(size - at) + 1), room = below(8) ? block * (1 + below(8)) : below(ROOM);
        begin_call();
        ours.status = rice_pull(&a, code + at, piece, ours.bytes, room, &ours.report);
        small.status = small_rice_pull(&b, code + at, piece, small.bytes, room, &small.report);
        compare("rice_pull");
        if (!are_same_stands(&a, &b)) fail("the drain after rice_pull");
    }
}

/* Codes that are written bit by bit. */
static size_t written;
static void put(uint32_t value, uint32_t digits) {
    for (uint32_t i = digits; i > 0; i--, written++) {
        if (written % 8 == 0) code[written / 8] = 0;
        code[written / 8] |= (uint8_t)((value >> (i - 1) & 1) << (7 - written % 8));
    }
}
static void put_sequence(uint32_t zeros) {
    for (; zeros > 0; zeros--) put(0, 1);
    put(1, 1);
}

/* What the last but one of five blocks is, which the fast decoder reads in a seldom way or leaves to the plain one. */
enum seldom { FEW_BITS, LONG_SEQUENCE, TOO_LARGE, FAR, PAIR_TOO_LARGE, NO_COMPRESSION, RUN, SELDOM };
static const char *const seldom_names[] = {"too few bits", "a long sequence", "a residual too large", "far samples", "a pair too large", "no compression", "a run"};

/* A block by split 1 or by another way. A reference sample comes first, of 1 and zeros. */
static void put_block(const struct rice_setting *s, bool first, bool seldom, enum seldom kind) {
    uint32_t id = s->bits <= 8 ? 3 : s->bits <= 16 ? 4 : 5, high = s->bits - 1, k = kind == FAR ? s->bits > 4 ? s->bits - 3 : 1 : 1;
    bool pairs = seldom && kind == PAIR_TOO_LARGE, zeros = seldom && kind == RUN, plain = seldom && kind == NO_COMPRESSION;
    k = seldom && k < (1u << id) - 3 ? k : 1;
    put(pairs || zeros ? 0 : plain ? (1u << id) - 1 : k + 1, id);
    if (pairs || zeros) put(pairs, 1);
    if (first && s->preprocess) put(1u << high, s->bits);
    uint32_t sent = s->block - (first && s->preprocess), sequences = zeros ? 1 : pairs ? s->block / 2 : plain ? 0 : sent;
    const uint32_t long_ones[SELDOM] = {0, 50, 3u << (high < 12 ? high : 12), 5, 60, 0, 0};
    for (uint32_t i = 0; i < sequences; i++) put_sequence(seldom && i == 2 ? long_ones[kind] : kind == PAIR_TOO_LARGE || zeros ? 0 : i % 3);
    for (uint32_t i = 0; i < sent && !pairs && !zeros; i++) put(next(), plain ? s->bits : k);
}

/* Decodes such codes at once and in pieces that end anywhere, all samples or some of the last block. */
static void compare_seldom(const struct rice_setting *setting, enum seldom kind) {
    struct rice_setting s = *setting;
    s.block = 8u << below(4), s.any_block = false, s.bits = kind == PAIR_TOO_LARGE ? 1 + below(3) : 5 + below(28), s.interval = 1 + below(6);
    if (rice_check(&s) != RICE_DONE) return;
    written = 0;
    for (uint32_t i = 0; i < 5 - (kind == FEW_BITS); i++) {
        put_block(&s, i % s.interval == 0, i == 3, kind);
        if (s.pad && (i + 1) % s.interval == 0) while (written % 8) put(0, 1);
    }
    while (written % 8) put(0, 1);
    for (uint32_t extra = 0; extra < 2; extra++) {
        begin_call();
        uint64_t count = 5 * s.block - below(2 * s.block);
        ours.status = rice_decode(&s, count, code, written / 8, ours.bytes, ROOM, &ours.report);
        small.status = small_rice_decode(&s, count, code, written / 8, small.bytes, ROOM, &small.report);
        compare(seldom_names[kind]);
        seldoms[kind][ours.status]++;
    }
    compare_drains(&s, written / 8);
}

static void try(void) {
    struct rice_setting s = any_setting();
    compare_settings(&s);
    size_t size = any_samples(&s, below(MOST_SAMPLES)), coded = compare_encode(&s, size);
    if (number % EACH_ROOM == 0) compare_each_encode(&s, size);
    compare_feeds(&s, size);
    coded = any_code(coded);
    compare_decode(&s, coded);
    if (number % EACH_ROOM == 0) compare_each_room(&s, coded);
    compare_drains(&s, coded);
    for (enum seldom kind = 0; kind < SELDOM; kind++) compare_seldom(&s, kind);
}

int main(int argc, char **argv) {
    if (argc != 2) return 2;
    uint64_t inputs = strtoull(argv[1], NULL, 10);
    for (number = 0; number < inputs; number++) try();
    for (uint32_t status = 0; status < STATUSES; status++) {
        if (statuses[status]) printf("calls: %s: %" PRIu64 "\n", rice_status_text(status), statuses[status]);
    }
    for (enum seldom kind = 0; kind < SELDOM; kind++) {
        printf("%s: decoded %" PRIu64 " times, refused %" PRIu64 ", cut %" PRIu64 "\n", seldom_names[kind], seldoms[kind][RICE_DONE], seldoms[kind][RICE_RESIDUAL_TOO_LARGE], seldoms[kind][RICE_CODE_ENDS]);
    }
    printf("compare-small: %" PRIu64 " inputs, %" PRIu64 " calls of each library, none that differs\n", inputs, calls);
    return 0;
}
