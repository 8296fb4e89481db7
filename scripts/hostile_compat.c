/* Gives the interfaces of compat/ samples and codes: whole, damaged, cut and random ones, at once and in pieces of random lengths. Room may
 * be too small, and memory refused. The output must be that of the library. Each piece and each output is memory of just its size, so that
 * the address sanitizer sees each byte beyond.
 * usage: hostile_compat CODES */
#include <inttypes.h>
#include <libaec.h>
#include <rice.h>
#include <stdio.h>
#include <stdlib.h>
#include <string.h>
#include <szlib.h>

char SZ_Compress(void);

enum { MOST_SAMPLES = 6000, ROOM = 1 << 19 };

/* The number of the request for memory that is refused, from now on, or 0. */
static uint64_t refused_in;

static bool is_refused(void) { return refused_in > 0 && --refused_in == 0; }
void *__real_malloc(size_t), *__real_calloc(size_t, size_t), *__real_realloc(void *, size_t);
void *__wrap_malloc(size_t size) { return is_refused() ? NULL : __real_malloc(size); }
void *__wrap_calloc(size_t count, size_t size) { return is_refused() ? NULL : __real_calloc(count, size); }
void *__wrap_realloc(void *old, size_t size) { return is_refused() ? NULL : __real_realloc(old, size); }

static uint64_t seed = 0x9e3779b97f4a7c15u, number;

static uint32_t below(uint32_t limit) {
    seed ^= seed << 7;
    seed ^= seed >> 9;
    return (uint32_t)((seed * 0x2545f4914f6cdd1du >> 32) * limit >> 32);
}

static void must(bool fact, const char *what) {
    if (fact) return;
    printf("hostile-compat: code %" PRIu64 ": %s\n", number, what);
    exit(1);
}

static uint8_t samples[4 * MOST_SAMPLES], loose[4 * MOST_SAMPLES], code[ROOM], joined[ROOM], whole[ROOM], laid[ROOM];
static bool has_sign;
static uint64_t damaged, cut, ranges, chunks, refusals;

static struct rice_setting some_setting(void) {
    static const uint32_t intervals[] = {1, 2, 3, 16, 63, 64, 65, 128, 4096};
    struct rice_setting s = {1 + below(32), 8u << below(4), intervals[below(9)], below(2), below(2), below(2), below(4), below(4) == 0, below(2)};
    if (s.any_block) s.block = 2 + 2 * below(32);
    has_sign = s.is_signed;
    if (!s.preprocess) s.is_signed = false;
    return s;
}

static struct aec_stream stream_of(const struct rice_setting *s) {
    struct aec_stream a = {.bits_per_sample = s->bits, .block_size = s->block, .rsi = s->interval};
    a.flags = (has_sign ? AEC_DATA_SIGNED : 0) | (s->three ? AEC_DATA_3BYTE : 0) | (s->msb ? AEC_DATA_MSB : 0)
        | (s->preprocess ? AEC_DATA_PREPROCESS : 0) | (s->pad ? AEC_PAD_RSI : 0) | (s->any_block ? AEC_NOT_ENFORCE : 0);
    return a;
}

/* Writes samples of some kind: as the library wants them, and with any unused bits where they are signed. */
static void some_samples(const struct rice_setting *s, uint32_t count) {
    uint32_t width = rice_sample_width(s), kind = below(5), mask = 0xffffffffu >> (32 - s->bits), x = below(UINT32_MAX) & mask;
    for (uint32_t i = 0; i < count; i++) {
        if (kind == 0) x = below(UINT32_MAX) & mask;
        if (kind == 1) x = (x + below(5)) & mask;
        if (kind == 2) x = below(200) ? 0 : below(UINT32_MAX) & mask;
        if (kind == 3) x = below(64) ? x : (x + below(9)) & mask;
        uint32_t y = s->is_signed && x >> (s->bits - 1) ? x | ~mask : x, z = has_sign ? x | (below(UINT32_MAX) & ~mask) : x;
        for (uint32_t b = 0; b < width; b++) {
            samples[i * width + (s->msb ? width - 1 - b : b)] = (uint8_t)(y >> 8 * b);
            loose[i * width + (s->msb ? width - 1 - b : b)] = (uint8_t)(z >> 8 * b);
        }
    }
}

/* Copies of bytes in memory of just their size. */
static uint8_t *copy_of(const uint8_t *bytes, size_t size) {
    uint8_t *copy = __real_malloc(size);
    if (size > 0) memcpy(copy, bytes, size);
    return copy;
}

static size_t some_length(size_t longest) {
    return below(4) ? below((uint32_t)longest) : below(8);
}

/* Gives a stream its input in pieces, and joins its output of at most `most` bytes. The length of what came, and the last status. */
static size_t in_pieces(struct aec_stream *a, int (*call)(struct aec_stream *, int), const uint8_t *in, size_t size, size_t most, int *status) {
    size_t given = 0, came = 0, longest = 1 + below(below(2) ? 40 : 3000);
    bool early = below(2);
    *status = AEC_OK;
    for (uint32_t idle = 0; *status == AEC_OK && came < most && idle < 40;) {
        size_t piece = some_length(longest), room = some_length(longest);
        if (piece > size - given) piece = size - given;
        if (room > most - came) room = most - came;
        uint8_t *from = copy_of(in + given, piece), *to = __real_malloc(room);
        a->next_in = from, a->avail_in = piece, a->next_out = to, a->avail_out = room;
        *status = call(a, given + piece == size && (early || piece == 0) ? AEC_FLUSH : AEC_NO_FLUSH);
        bool idles = room > 0 && a->avail_out == room && (given == size || (piece > 0 && a->avail_in == piece));
        bool goes_on = a->avail_out < room || a->avail_in < piece;
        given += piece - a->avail_in;
        memcpy(joined + came, to, room - a->avail_out);
        came += room - a->avail_out;
        must(a->total_in == given && a->total_out == came, "other totals");
        must(a->next_in == from + piece - a->avail_in && a->next_out == to + room - a->avail_out, "other places");
        idle = goes_on ? 0 : idle + idles;
        free(from), free(to);
    }
    return came;
}

/* All at once, in memory of just its size. */
static size_t at_once(struct aec_stream *a, int (*call)(struct aec_stream *), const uint8_t *in, size_t size, size_t room, int *status) {
    uint8_t *from = copy_of(in, size), *to = __real_malloc(room);
    a->next_in = from, a->avail_in = size, a->next_out = to, a->avail_out = room;
    *status = call(a);
    size_t came = room - a->avail_out;
    must(a->total_out == came && a->next_out == to + came, "other totals at once");
    memcpy(joined, to, came);
    free(from), free(to);
    return came;
}

/* Encodes the samples by both interfaces of libaec. Returns the bytes of code. */
static size_t try_encoding(const struct rice_setting *s, uint32_t count, size_t *offsets, size_t *intervals) {
    struct rice_report report;
    struct aec_stream a = stream_of(s);
    size_t size = count * rice_sample_width(s);
    int status;
    must(rice_encode(s, samples, size, code, ROOM, &report) == RICE_DONE, "not encoded");
    size_t length = count ? report.written : 1;
    if (count == 0) code[0] = 0;
    must(at_once(&a, aec_buffer_encode, loose, size, length + below(2) * below(5000), &status) == length && status == AEC_OK && !memcmp(joined, code, length), "another code at once");
    size_t less = below((uint32_t)length);
    must(at_once(&a, aec_buffer_encode, loose, size, less, &status) <= less && status == AEC_STREAM_ERROR, "too little room is not seen");
    must(aec_encode_init(&a) == AEC_OK, "no init");
    if (offsets) must(aec_encode_enable_offsets(&a) == AEC_OK && aec_encode_enable_offsets(&a) == AEC_RSI_OFFSETS_ERROR, "enable");
    if (below(8) == 0) {
        size_t came = in_pieces(&a, aec_encode, loose, size, less, &status);
        must(status == AEC_OK && came <= less && !memcmp(joined, code, came), "another code in pieces with too little room");
        status = aec_encode_end(&a);
        must(status == AEC_OK || status == AEC_STREAM_ERROR, "another end");
        must(aec_encode_init(&a) == AEC_OK, "no init");
        if (offsets) must(aec_encode_enable_offsets(&a) == AEC_OK, "enable");
    }
    must(in_pieces(&a, aec_encode, loose, size, SIZE_MAX, &status) == length && status == AEC_OK && !memcmp(joined, code, length), "another code in pieces");
    *intervals = 0;
    must(aec_encode_count_offsets(&a, intervals) == (offsets ? AEC_OK : AEC_RSI_OFFSETS_ERROR), "count");
    if (offsets) {
        must(*intervals == (count + s->interval * s->block - 1) / (s->interval * s->block), "another number of intervals");
        must(*intervals == 0 || aec_encode_get_offsets(&a, offsets, *intervals - 1) == AEC_MEM_ERROR, "too few offsets");
    }
    must(aec_encode_get_offsets(&a, offsets, *intervals) == (offsets ? AEC_OK : AEC_RSI_OFFSETS_ERROR), "get");
    a.next_in = samples, a.avail_in = 1;
    must(aec_encode(&a, AEC_NO_FLUSH) == AEC_STREAM_ERROR, "samples after the end");
    must(aec_encode_end(&a) == AEC_OK, "another end");
    return length;
}

/* Ranges, and the code from an interval on. */
static void try_ranges(const struct rice_setting *s, uint32_t count, size_t length, size_t *offsets, size_t intervals) {
    size_t size = count * rice_sample_width(s), interval = (size_t)s->interval * s->block * rice_sample_width(s), found, *again;
    struct aec_stream a = stream_of(s);
    int status;
    must(aec_decode_init(&a) == AEC_OK && aec_decode_enable_offsets(&a) == AEC_OK, "no init");
    must(in_pieces(&a, aec_decode, code, length, size, &status) == size && status == AEC_OK && !memcmp(joined, samples, size), "other samples");
    must(aec_decode_count_offsets(&a, &found) == AEC_OK && found >= intervals, "another number of offsets");
    again = __real_malloc(found * sizeof *again);
    must(aec_decode_get_offsets(&a, again, found) == AEC_OK && !memcmp(again, offsets, intervals * sizeof *again), "other offsets");
    free(again);
    aec_decode_end(&a);
    for (uint32_t i = 0; i < 4 && size > 0; i++) {
        size_t pos = below((uint32_t)size), want = below((uint32_t)(size - pos) + 1);
        uint8_t *from = copy_of(code, length), *to = __real_malloc(want);
        must(aec_decode_init(&a) == AEC_OK, "no init");
        a.next_in = from, a.avail_in = length, a.next_out = to, a.avail_out = want;
        must(aec_decode_range(&a, offsets, intervals, pos, want) == AEC_OK && a.avail_out == 0 && a.total_out == want, "no range");
        must(a.next_in == from && !memcmp(to, samples + pos, want), "another range");
        must(aec_decode_range(&a, offsets, pos / interval, pos, 0) == AEC_DATA_ERROR, "no such interval");
        must(aec_decode_range(&a, offsets, intervals, pos, 1) == AEC_MEM_ERROR, "no room");
        size_t beyond = 8 * length + 8, inside = 1;
        must(aec_decode_range(&a, &beyond, 1, 0, 0) == AEC_DATA_ERROR, "a range after the code");
        if (s->pad) must(aec_decode_range(&a, &inside, 1, 0, 0) == AEC_DATA_ERROR, "a padded interval begins at a byte");
        size_t number = pos / interval, rest = size - number * interval;
        uint8_t *tail = __real_malloc(rest);
        a.next_out = tail, a.avail_out = rest, a.avail_in = length - 1;
        must(aec_decode_range(&a, offsets, intervals, size - 1, 1) == AEC_DATA_ERROR && a.avail_out == rest, "a range of a code that is cut");
        a.avail_in = length;
        must(aec_buffer_seek(&a, 8 * length + 8) == AEC_MEM_ERROR, "no such place");
        if (s->pad) must(aec_buffer_seek(&a, 1) == AEC_DATA_ERROR, "padded intervals begin at bytes");
        must(aec_buffer_seek(&a, offsets[number]) == AEC_OK && aec_decode(&a, AEC_FLUSH) == AEC_OK && a.avail_out == 0, "no seek");
        must(!memcmp(tail, samples + number * interval, rest), "other samples after a seek");
        aec_decode_end(&a);
        free(from), free(to), free(tail);
        ranges++;
    }
}

/* Makes a code of the one that is there: the same, cut, damaged, or random bytes. */
static size_t some_code(size_t length) {
    uint32_t kind = below(6);
    if (kind == 0) {
        length = below(300);
        for (size_t i = 0; i < length; i++) code[i] = (uint8_t)(below(256) & (below(3) ? 255 : below(256)));
    }
    if (kind == 1) length = below((uint32_t)length + 1);
    if (kind >= 3) for (uint32_t flips = 1 + below(8); flips > 0; flips--) code[below((uint32_t)length)] ^= (uint8_t)(1u << below(8));
    if (kind == 2) for (uint32_t more = below(100); more > 0; more--) code[length++] = 0;
    return length;
}

/* Decodes some code by both interfaces of libaec. */
static void try_decoding(const struct rice_setting *s, size_t length) {
    struct rice_report report;
    struct aec_stream a = stream_of(s);
    uint32_t end = rice_decode_all(s, code, length, whole, sizeof whole, &report);
    size_t size = report.written, room = below(2) ? size + below(300) : below((uint32_t)size + 1), front = room < size ? room : size;
    bool is_damaged = end == RICE_RUN_PAST_SEGMENT || end == RICE_RESIDUAL_TOO_LARGE;
    int status;
    if (end == RICE_NO_ROOM) return;
    damaged += is_damaged, cut += end == RICE_CODE_ENDS;
    must(at_once(&a, aec_buffer_decode, code, length, room, &status) == front && !memcmp(joined, whole, front), "other samples at once");
    must(status == (end == RICE_DONE || room <= size ? AEC_OK : AEC_DATA_ERROR), "another status at once");
    must(aec_decode_init(&a) == AEC_OK, "no init");
    must(in_pieces(&a, aec_decode, code, length, room, &status) == front && !memcmp(joined, whole, front), "other samples in pieces");
    must(status == (is_damaged && room > size ? AEC_DATA_ERROR : AEC_OK), "another status in pieces");
    must(aec_decode_end(&a) == AEC_OK, "another end");
}

/* A chunk of pixels by szlib's interface, whose code is compared with one that is laid out here, byte by byte. */
static void try_chunk(void) {
    int bits = below(2) ? 1 + (int)below(24) : below(2) ? 32 : 64;
    SZ_com_t p = {(below(2) ? SZ_MSB_OPTION_MASK : 0) | (below(4) ? SZ_NN_OPTION_MASK : SZ_EC_OPTION_MASK), bits, 2 + 2 * (int)below(16), 1 + (int)below(below(2) ? 40 : 600)};
    size_t planes = bits > 24 ? (size_t)bits / 8 : 1, pixel = planes > 1 || bits <= 8 ? 1 : bits <= 16 ? 2 : 4;
    size_t blocks = ((size_t)p.pixels_per_scanline + (size_t)p.pixels_per_block - 1) / (size_t)p.pixels_per_block;
    size_t line = (size_t)p.pixels_per_scanline * pixel, filled = blocks * (size_t)p.pixels_per_block * pixel;
    size_t size = below(600) * planes * pixel, all = (size + line - 1) / line * filled, length, came;
    struct rice_setting s = {planes > 1 ? 8 : (uint32_t)bits, (uint32_t)p.pixels_per_block, (uint32_t)blocks, false, p.options_mask & SZ_MSB_OPTION_MASK, false, p.options_mask & SZ_NN_OPTION_MASK, false, true};
    struct rice_report report;
    has_sign = false;
    some_samples(&s, (uint32_t)(size / pixel));
    for (size_t i = 0; i < size; i++) {
        size_t at = i % planes * (size / planes) + i / planes;
        laid[at / line * filled + at % line] = samples[i];
    }
    for (size_t i = 0; i < all; i++) {
        size_t used = i / filled + 1 < all / filled ? line : (size - 1) % line + 1;
        if (i % filled >= used) laid[i] = s.preprocess ? laid[i - pixel] : 0;
    }
    must(rice_encode(&s, laid, all, code, ROOM, &report) == RICE_DONE, "no chunk");
    length = size ? report.written : 1;
    if (size == 0) code[0] = 0;
    uint8_t *from = copy_of(samples, size), *to = __real_malloc(length);
    came = length;
    must(SZ_BufftoBuffCompress(to, &came, from, size, &p) == SZ_OK && came == length && !memcmp(to, code, length), "another chunk");
    came = below((uint32_t)length);
    must(SZ_BufftoBuffCompress(to, &came, from, size, &p) == SZ_OUTBUFF_FULL, "a chunk without room");
    free(from), free(to);
    if (size == 0) return;
    length = some_code(length);
    from = copy_of(code, length), to = __real_malloc(size), came = size;
    int status = SZ_BufftoBuffDecompress(to, &came, from, length, &p);
    size_t needed = (size - 1) / line * filled + (size - 1) % line + 1;
    uint32_t end = rice_decode(&s, needed / pixel, code, length, laid, ROOM, &report);
    must(came == size && status == (end == RICE_DONE ? SZ_OK : AEC_DATA_ERROR), "another end of a chunk");
    for (size_t i = 0; status == SZ_OK && i < size; i++) {
        size_t at = i % planes * (size / planes) + i / planes;
        must(to[i] == laid[at / line * filled + at % line], "another pixel");
    }
    free(from), free(to);
    chunks++;
}

static size_t places[100];
enum { PLACES = 63 };

/* Encodes 1,000 samples with offsets, where the request with some number is refused. Returns the first error. */
static int encode_refused(struct aec_stream *a, uint64_t which) {
    refused_in = which;
    a->next_in = loose, a->avail_in = 2000, a->next_out = code, a->avail_out = ROOM;
    int status = aec_encode_init(a);
    if (status != AEC_OK) return status;
    aec_encode_enable_offsets(a);
    must(aec_encode(a, AEC_FLUSH) == AEC_OK, "offsets stop coding");
    size_t found;
    status = aec_encode_count_offsets(a, &found);
    must(aec_encode_get_offsets(a, places, 100) == status && (status != AEC_OK || found == PLACES), "offsets without memory");
    aec_encode_end(a);
    return status;
}

/* Decodes a code byte by byte, or a range of it. */
static int decode_refused(struct aec_stream *a, uint64_t which, size_t length, bool range) {
    refused_in = which;
    int status = aec_decode_init(a);
    if (status != AEC_OK) return status;
    a->next_in = code, a->avail_in = length, a->next_out = joined, a->avail_out = 2000;
    if (range) status = aec_decode_range(a, places, PLACES, 10, 100);
    for (size_t i = 0; i < length && status == AEC_OK && !range; i++) {
        a->next_in = code + i, a->avail_in = 1;
        status = aec_decode(a, AEC_NO_FLUSH);
    }
    must(status != AEC_OK || !memcmp(joined, samples + (range ? 10 : 0), range ? 100 : 2000), "other samples");
    aec_decode_end(a);
    return status;
}

/* Refuses each request for memory in turn. */
static void try_memory(void) {
    struct rice_setting s = {12, 8, 2, true, false, false, true, false, false};
    has_sign = true;
    struct aec_stream a = stream_of(&s), b = a;
    SZ_com_t p = {SZ_NN_OPTION_MASK, 32, 8, 30};
    static uint8_t chunk[ROOM];
    size_t room = ROOM, size = 2000;
    some_samples(&s, 1000);
    must(encode_refused(&a, 0) == AEC_OK && SZ_BufftoBuffCompress(chunk, &room, samples, 2000, &p) == SZ_OK, "not encoded");
    for (uint64_t which = 1; which < 8; which++) {
        size_t length = a.total_out, came = ROOM;
        int status[] = {encode_refused(&b, which), (refused_in = which, b.next_in = loose, b.avail_in = 2000, b.next_out = joined, b.avail_out = ROOM, aec_buffer_encode(&b)),
            decode_refused(&b, which, length, false), decode_refused(&b, which, length, true),
            (refused_in = which, SZ_BufftoBuffCompress(joined, &came, samples, 2000, &p)), (refused_in = which, SZ_BufftoBuffDecompress(joined, &size, chunk, room, &p))};
        for (size_t i = 0; i < sizeof status / sizeof *status; i++) {
            must(status[i] == AEC_OK || status[i] == AEC_MEM_ERROR, "another error than of memory");
            must(which > 1 || status[i] == AEC_MEM_ERROR, "memory isn't refused");
            refusals += status[i] == AEC_MEM_ERROR;
        }
    }
    refused_in = 0;
}

/* Settings and samples that are refused, and a coded data set that is too long to be kept. */
static void try_refusals(void) {
    static const struct { unsigned bits, block, interval, flags; int encoding, decoding; } rows[] = {
        {0, 8, 2, 0, AEC_CONF_ERROR, AEC_CONF_ERROR}, {33, 8, 2, 0, AEC_CONF_ERROR, AEC_CONF_ERROR},
        {8, 10, 2, 0, AEC_CONF_ERROR, AEC_OK}, {8, 10, 2, AEC_NOT_ENFORCE, AEC_OK, AEC_OK}, {8, 9, 2, AEC_NOT_ENFORCE, AEC_CONF_ERROR, AEC_CONF_ERROR},
        {8, 66, 2, AEC_NOT_ENFORCE, AEC_CONF_ERROR, AEC_CONF_ERROR}, {8, 8, 0, 0, AEC_CONF_ERROR, AEC_CONF_ERROR}, {8, 8, 4097, 0, AEC_CONF_ERROR, AEC_CONF_ERROR},
        {4, 8, 2, AEC_RESTRICTED, AEC_CONF_ERROR, AEC_CONF_ERROR}, {8, 8, 2, AEC_RESTRICTED, AEC_CONF_ERROR, AEC_CONF_ERROR}, {9, 8, 2, AEC_RESTRICTED, AEC_OK, AEC_OK}};
    for (size_t i = 0; i < sizeof rows / sizeof *rows; i++) {
        struct aec_stream a = {.bits_per_sample = rows[i].bits, .block_size = rows[i].block, .rsi = rows[i].interval, .flags = rows[i].flags, .next_out = code, .avail_out = ROOM};
        must(aec_encode_init(&a) == rows[i].encoding && (rows[i].encoding || aec_encode_end(&a) == AEC_OK), "a setting to encode");
        must(aec_buffer_encode(&a) == rows[i].encoding, "a setting to encode at once");
        must(aec_decode_init(&a) == rows[i].decoding && (rows[i].decoding || aec_decode_end(&a) == AEC_OK), "a setting to decode");
        must(aec_buffer_decode(&a) == rows[i].decoding, "a setting to decode at once");
    }
    uint8_t high[40];
    memset(high, 200, sizeof high);
    struct aec_stream a = {.bits_per_sample = 7, .block_size = 8, .rsi = 2, .next_in = high, .avail_in = 40, .next_out = code, .avail_out = ROOM};
    must(aec_buffer_encode(&a) == AEC_DATA_ERROR, "unused bits at once");
    must(aec_encode_init(&a) == AEC_OK, "no init");
    a.next_in = high, a.avail_in = 40;
    must(aec_encode(&a, AEC_FLUSH) == AEC_DATA_ERROR && aec_encode_end(&a) == AEC_STREAM_ERROR, "unused bits in whole segments");
    must(aec_encode_init(&a) == AEC_OK, "no init");
    a.next_in = high, a.avail_in = 4;
    must(aec_encode(&a, AEC_FLUSH) == AEC_DATA_ERROR && aec_encode_end(&a) == AEC_STREAM_ERROR, "unused bits in the last samples");
    a.bits_per_sample = 16;
    must(aec_encode_init(&a) == AEC_OK, "no init");
    a.next_in = high, a.avail_in = 3;
    must(aec_encode(&a, AEC_FLUSH) == AEC_DATA_ERROR && aec_encode_end(&a) == AEC_STREAM_ERROR, "half a sample");
    a.next_in = high, a.avail_in = 3;
    must(aec_buffer_encode(&a) == AEC_DATA_ERROR, "half a sample at once");
    memset(high, 0, sizeof high), high[0] = 0x08, a.bits_per_sample = 32, a.flags = AEC_DATA_PREPROCESS;
    must(aec_decode_init(&a) == AEC_OK, "no init");
    a.next_out = joined, a.avail_out = ROOM;
    int status = AEC_OK;
    for (uint32_t piece = 0; piece < 50 && status == AEC_OK; piece++) {
        a.next_in = piece ? whole : high, a.avail_in = piece ? 1 << 16 : 40;
        status = aec_decode(&a, AEC_NO_FLUSH);
        must(a.avail_in == 0 || status != AEC_OK, "input is left");
    }
    must(status == AEC_MEM_ERROR && aec_decode_end(&a) == AEC_OK, "a coded data set without end");
    SZ_com_t p = {SZ_NN_OPTION_MASK, 16, 8, 16};
    size_t size = 15, room = ROOM;
    must(SZ_BufftoBuffCompress(code, &room, samples, size, &p) == SZ_PARAM_ERROR && SZ_BufftoBuffDecompress(code, &size, samples, 20, &p) == SZ_PARAM_ERROR, "half a pixel");
    for (uint32_t i = 0; i < 4; i++) {
        SZ_com_t bad = {SZ_NN_OPTION_MASK, i == 0 ? 0 : 8, i == 1 ? 0 : 8, i == 2 ? 0 : i == 3 ? 32769 : 16};
        must(SZ_BufftoBuffCompress(code, &room, samples, 16, &bad) == SZ_PARAM_ERROR, "bad parameters");
    }
    size = 0;
    must(SZ_BufftoBuffDecompress(code, &size, samples, 20, &p) == SZ_OK && size == 0, "no pixels");
    must(SZ_encoder_enabled() == 1 && SZ_Compress() == SZ_OK, "no encoder");
}

int main(int argc, char **argv) {
    if (argc != 2) return 2;
    uint64_t codes = strtoull(argv[1], NULL, 10);
    static size_t offsets[MOST_SAMPLES];
    try_memory();
    try_refusals();
    for (number = 0; number < codes; number++) {
        struct rice_setting s = some_setting();
        uint32_t count = below(100) ? below(300) : below(MOST_SAMPLES);
        bool indexed = below(2);
        size_t intervals;
        some_samples(&s, count);
        size_t length = try_encoding(&s, count, indexed ? offsets : NULL, &intervals);
        if (indexed && count > 0) try_ranges(&s, count, length, offsets, intervals);
        try_decoding(&s, some_code(length));
        try_chunk();
    }
    printf("hostile-compat: %" PRIu64 " codes, %" PRIu64 " damaged and %" PRIu64 " cut; %" PRIu64 " ranges, %" PRIu64 " chunks, %" PRIu64 " requests for memory refused; none at fault\n", codes, damaged, cut, ranges, chunks, refusals);
    return 0;
}
