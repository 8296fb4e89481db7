/*
 * rice.h - lossless compression of samples by the adaptive Rice coder of CCSDS 121.0-B-3.
 *
 * The library encodes and decodes from memory to memory. It allocates nothing, and calls nothing but memcpy, memmove and memset.
 * Between calls, it keeps data only in the caller's feeds and drains. It writes only in the memory that it is given, whatever
 * the input. Calls may run in several threads at once, each with an output, a report and a feed or drain of its own.
 * docs/CODE.md defines the code and its terms.
 * This header is for C99, C++98 and later, on machines with pointers of eight bytes and the least significant byte first.
 *
 * The library does not check what follows. The caller ensures it:
 *   - A pointer to a setting, feed, drain or report points to one. Each bool of a setting is true or false.
 *   - rice_begin gets a feed of zeros, or one that was begun before. rice_push and rice_finish get a feed as rice_begin or the
 *     last rice_push left it, or a copy of one.
 *   - rice_open and rice_open_at get a drain of zeros, or one that was opened before. rice_pull gets a drain as these or the
 *     last rice_pull left it, or a copy of one.
 *   - A pointer and a length name memory that exists, at most PTRDIFF_MAX bytes. With the length 0, C and C++ callers with this
 *     header may pass NULL. Other callers then pass the address of any byte.
 *   - Every byte of that memory is initialised, in outputs too: by calloc or memset, for example. In practice, memory of malloc
 *     is enough, since the library reads no byte of an output before it writes it. But the proof assumes initialised memory.
 *   - The output, the report, and a feed or drain that a call changes overlap with nothing else that the call gets. During the
 *     call, no other thread touches these, or changes what the call reads.
 *   - The stack has the room stated below.
 *
 * A running call holds its data on the stack: RICE_ENCODE_STACK bytes are enough to encode, and RICE_DECODE_STACK to decode.
 * Tests measure calls, and run them on stacks of these sizes, on x86-64 and aarch64 Linux.
 */
#ifndef RICE_H
#define RICE_H

#include <stdbool.h>
#include <stddef.h>
#include <stdint.h>

#ifdef __cplusplus
extern "C" {
#endif

/* The version of this header and of its library. */
#define RICE_VERSION_MAJOR 1
#define RICE_VERSION_MINOR 0
#define RICE_VERSION_PATCH 0
#define RICE_VERSION (RICE_VERSION_MAJOR * 10000 + RICE_VERSION_MINOR * 100 + RICE_VERSION_PATCH)
#define RICE_VERSION_TEXT "1.0.0"

enum { RICE_ENCODE_STACK = 48 * 1024, RICE_DECODE_STACK = 12 * 1024, RICE_FEED_SIZE = 72, RICE_DRAIN_SIZE = 64 };

/* The setting of coder and decoder. A code does not contain it: decode with the setting that encoded. */
struct rice_setting {
    uint32_t bits;     /* the bits of a sample, 1 to 32 */
    uint32_t block;    /* the samples of a block: 8, 16, 32 or 64, as in the standard, unless any_block is set */
    uint32_t interval; /* the blocks of a reference interval, 1 to 4096 */
    bool is_signed;    /* samples are signed */
    bool msb;          /* the most significant byte of a sample comes first */
    bool three;        /* samples of 17 to 24 bits take three bytes, not four */
    bool preprocess;   /* samples are predicted; set it unless they were predicted before */
    bool pad;          /* the code of each reference interval is filled to a byte */
    bool any_block;    /* any even number of samples from 2 to 64 makes a block */
};

/* Returns the setting that suits most samples of `bits` bits: preprocess, block 32 and interval 128. All else is false. */
static inline struct rice_setting rice_setting_for(uint32_t bits) {
    struct rice_setting setting = {bits, 32, 128, false, false, false, true, false, false};
    return setting;
}

/* How a call ended. `place` is in the report, and counts from 0. */
enum rice_status {
    RICE_DONE = 0,               /* all was done */
    RICE_BAD_BITS = 1,           /* the bits of a sample are not 1 to 32 */
    RICE_BAD_BLOCK = 2,          /* the block size is not 8, 16, 32 or 64; with any_block, not even or not 2 to 64 */
    RICE_BAD_INTERVAL = 3,       /* the interval is not 1 to 4096 */
    RICE_SAMPLE_OUT_OF_RANGE = 4, /* sample `place` is out of range: its unused bits must be 0, or if signed equal its sign */
    RICE_INPUT_CUT = 5,          /* the input ends inside sample `place` */
    RICE_CODE_ENDS = 6,          /* the code ends after `place` samples, inside a coded data set or before the requested count */
    RICE_RUN_PAST_SEGMENT = 7,   /* the code is damaged: the run of zero blocks at block `place` is too long */
    RICE_RESIDUAL_TOO_LARGE = 8, /* the code is damaged: a residual of block `place` is too large */
    RICE_NO_ROOM = 9,            /* the output is too small, and all of it is written; rice_pull: no further block fits */
    RICE_TOO_LONG = 10,          /* the input has more than 2^48 bytes of samples, or 2^49 bytes of code */
    RICE_ONLY_ZEROS = 11,        /* rice_pull: no 1 is left in the piece */
    RICE_MORE_CODE = 12,         /* rice_pull: the rest of the piece has a 1, but no whole coded data set */
    RICE_BAD_PLACE = 13          /* rice_open_at: no interval can begin there */
};

/* A report: what a call did. */
struct rice_report {
    uint64_t samples; /* the samples that encoding took, or that decoding wrote (with RICE_NO_ROOM, those of whole blocks) */
    uint64_t bits;    /* the bits of code: encoded, without padding, or decoded, with padding (see below) */
    uint64_t steps;   /* the work, in steps: docs/C.md defines these under Bounds */
    uint64_t written; /* the bytes written, from the start of the output; those after them are unchanged */
    uint64_t place;   /* the `place` that the status mentions, or 0 */
};

/* What `bits` counts.
 * Encoding: the bits of all coded data sets, without the padding of intervals and the zeros that fill the last byte. The length
 * of rice_encode's code in bytes is `written`.
 * rice_decode with RICE_DONE: the bits up to the end of the last coded data set that was needed, with its padding.
 * rice_decode_all with RICE_DONE: all bits of the code.
 * Both with RICE_CODE_ENDS: all bits of the code. To learn where the last whole coded data set ended, decode the first
 * `samples` samples of the same code by rice_decode.
 * Both with RICE_TOO_LONG: 2^52, the bits of 2^49 bytes.
 * Both with RICE_RUN_PAST_SEGMENT, RICE_RESIDUAL_TOO_LARGE or RICE_NO_ROOM: the bits up to the end of the coded data set that
 * is damaged, or whose block does not fit.
 * rice_pull: `drain->bits`. */

/* Returns the version of the library, in the form of RICE_VERSION. */
uint32_t rice_version(void);

/* Returns RICE_DONE if the setting is legal; else RICE_BAD_BITS, RICE_BAD_BLOCK or RICE_BAD_INTERVAL. */
uint32_t rice_check(const struct rice_setting *setting);

/* Returns the bytes of a sample: 1 for up to 8 bits, 2 for up to 16, 3 for up to 24 if `three` is set, else 4. Returns 0 if the
 * setting is not legal. */
uint32_t rice_sample_width(const struct rice_setting *setting);

/* Returns a number of bytes that is enough for the code of any `samples` samples, as rice_encode writes it. The outputs of all
 * rice_push calls and one rice_finish that return RICE_DONE fit in as many. Returns 0 if the setting is not legal, or `samples`
 * is above 2^48. */
uint64_t rice_code_room(const struct rice_setting *setting, uint64_t samples);

/* Returns a number of bytes that hold any coded data set of this library with its padding, at most 259. The count begins with
 * the byte in which the coded data set begins, at any bit. Returns 0 if the setting is not legal. Coded data sets of other
 * coders may be longer. */
uint32_t rice_set_room(const struct rice_setting *setting);

/* Returns an upper bound of `steps` in the reports of rice_encode and rice_finish for `samples` samples. Returns 0 if the
 * setting is not legal, or `samples` is above 2^48. In decoding, `steps` is at most 2 * bits + samples. */
uint64_t rice_step_bound(const struct rice_setting *setting, uint64_t samples);

/* Brings the `samples_len` bytes at `samples` into the form that rice_encode wants. The lowest `bits` bits of each sample stay.
 * The others become 0, or copies of the sign where samples are signed, so that no sample is out of range. Bytes at the end that
 * are too few for a sample stay. Returns RICE_DONE; or RICE_BAD_..., and nothing changes. */
uint32_t rice_spell(const struct rice_setting *setting, uint8_t *samples, size_t samples_len);

/* Encodes the samples in the `samples_len` bytes at `samples`. Writes their code to `code`, which has room for `code_room`
 * bytes. Returns a status of enum rice_status:
 *   RICE_DONE                 The code of all samples is written: `report->written` bytes.
 *   RICE_SAMPLE_OUT_OF_RANGE, RICE_INPUT_CUT
 *                             The code of the whole segments before sample `place` is written, except an incomplete last
 *                             byte. A segment is 64 blocks, or the rest of an interval.
 *   RICE_TOO_LONG             The same for the samples in the first 2^48 bytes. `report->place` is 0.
 *   RICE_NO_ROOM              The code does not fit. The code of up to 2^48 samples always fits in
 *                             rice_code_room(setting, samples_len / rice_sample_width(setting)) bytes.
 *   RICE_BAD_...              Nothing is written, and the report is all zeros. */
uint32_t rice_encode(const struct rice_setting *setting, const uint8_t *samples, size_t samples_len, uint8_t *code,
                     size_t code_room, struct rice_report *report);

/* Decodes the first `count` samples of the `code_len` bytes of code at `code`. Writes them to `samples`, which has room for
 * `samples_room` bytes. The bits after their code have no effect. Returns a status of enum rice_status:
 *   RICE_DONE                 All `count` samples are written.
 *   RICE_CODE_ENDS, RICE_RUN_PAST_SEGMENT, RICE_RESIDUAL_TOO_LARGE
 *                             All samples before sample or block `place` are written.
 *   RICE_TOO_LONG             The first 2^49 bytes of code are not enough. The samples of their whole coded data sets are
 *                             written. `report->place` is 0.
 *   RICE_NO_ROOM              The samples do not fit. With count * rice_sample_width(setting) bytes they always fit.
 *   RICE_BAD_...              Nothing is written, and the report is all zeros. */
uint32_t rice_decode(const struct rice_setting *setting, uint64_t count, const uint8_t *code, size_t code_len,
                     uint8_t *samples, size_t samples_room, struct rice_report *report);

/* Decodes all of a code whose number of samples is not known. The samples that fill the last block, or the last run of blocks,
 * come too: for a code of rice_encode, fewer than a segment. Returns RICE_DONE if all samples fit, and no 1 is left in the
 * code; else a status as rice_decode. A code gives at most 456 samples for each of its bits. */
uint32_t rice_decode_all(const struct rice_setting *setting, const uint8_t *code, size_t code_len, uint8_t *samples,
                         size_t samples_room, struct rice_report *report);

/* A coder that encodes piece by piece, in RICE_FEED_SIZE bytes of the caller's: its setting, and where its code ends. It keeps
 * no samples: those of an unfinished segment stay with the caller. A copy of a feed goes on from the same place. Read its
 * numbers, and write none. */
struct rice_feed {
    struct rice_setting setting;
    uint64_t samples;      /* the samples encoded so far, in whole segments */
    uint64_t bits;         /* the bits of their code, without padding */
    uint64_t steps;        /* the work so far */
    int64_t previous;      /* the last sample, or 0 */
    uint32_t start;        /* the place of the next block in its interval */
    uint32_t waiting;      /* the bits of the unfinished byte of code, as a number */
    uint32_t waiting_bits; /* how many these are, 0 to 7 */
};

/* Begins a code without samples. Returns RICE_DONE; or RICE_BAD_..., and the feed does not change. */
uint32_t rice_begin(const struct rice_setting *setting, struct rice_feed *feed);

/* Returns a number of bytes that is enough for one rice_push or rice_finish with this feed and any `samples` samples or fewer.
 * Returns 0 if the feed has no legal setting, or `samples` is above 2^48. */
uint64_t rice_push_room(const struct rice_feed *feed, uint64_t samples);

/* Encodes the next samples, in the `samples_len` bytes at `samples`: those after the first `feed->samples` samples. It takes
 * all whole segments of them, of 64 blocks or the rest of an interval, and counts these samples in `feed->samples`. It writes
 * the whole bytes of their code to `code`. The other samples, fewer than a segment, are not taken: give them again, with more
 * after them. The number of samples alone decides how many are taken. `report` counts from rice_begin on, but `written` counts
 * the bytes of this call. Returns a status of enum rice_status:
 *   RICE_DONE                 All of that is done. The outputs of all rice_push calls with RICE_DONE, joined, are the
 *                             beginning of rice_encode's output.
 *   RICE_SAMPLE_OUT_OF_RANGE  A sample in a whole segment is out of range. `place` counts from rice_begin on.
 *   RICE_NO_ROOM              The bytes do not fit. Those of up to 2^48 samples always fit in
 *                             rice_push_room(feed, samples_len / rice_sample_width(&feed->setting)) bytes.
 *   RICE_TOO_LONG             There are more than 2^48 bytes of samples since rice_begin.
 *   RICE_BAD_...              The feed has no legal setting.
 * Unless it returns RICE_DONE, the feed does not change: forget the output of this call, and give the samples again. */
uint32_t rice_push(struct rice_feed *feed, const uint8_t *samples, size_t samples_len, uint8_t *code, size_t code_room,
                   struct rice_report *report);

/* Encodes the last samples, in whole segments or not, and writes the rest of the code to `code`. With RICE_DONE, the outputs of
 * all rice_push calls with RICE_DONE and of this call, joined, are the output of rice_encode for all samples. `report` counts
 * from rice_begin on, but `written` counts the bytes of this call. The feed does not change: encoding can go on from it. Returns
 * a status as rice_push, or RICE_INPUT_CUT. Unless it returns RICE_DONE, forget the output of this call. */
uint32_t rice_finish(const struct rice_feed *feed, const uint8_t *samples, size_t samples_len, uint8_t *code,
                     size_t code_room, struct rice_report *report);

/* A decoder that decodes piece by piece, in RICE_DRAIN_SIZE bytes of the caller's: its setting, and its place in the code. It
 * keeps no code and no samples. A copy of a drain goes on from the same place. Read its numbers, and write none. */
struct rice_drain {
    struct rice_setting setting;
    uint64_t samples;  /* the samples from the beginning of the code on */
    uint64_t bits;     /* the bits of their code, with padding: the next piece begins with byte bits / 8 */
    uint64_t steps;    /* the work on the coded data sets taken since it was opened */
    int64_t previous;  /* the last sample, or 0 */
    uint32_t block;    /* the place of the next block in its interval */
    uint32_t run;      /* the blocks that are still to come of a run of zero blocks */
};

/* Opens a code at its front. Returns RICE_DONE; or RICE_BAD_..., and the drain does not change. */
uint32_t rice_open(const struct rice_setting *setting, struct rice_drain *drain);

/* Opens a code at the beginning of an interval: after `samples` samples and `bits` bits. rice_pull then gives the samples of
 * the code after that place. The caller has kept these two numbers:
 *   - from a drain with `block` and `run` 0: its `samples` and `bits`;
 *   - from a feed with `start` 0: its `samples`, and `waiting_bits` plus 8 times the bytes that rice_push wrote with RICE_DONE.
 * Returns RICE_DONE; RICE_BAD_PLACE if `samples` is above 2^62 or `bits` above 2^52, or if intervals are padded and `bits` is
 * not a multiple of 8; or RICE_BAD_.... Unless it returns RICE_DONE, the drain does not change. */
uint32_t rice_open_at(const struct rice_setting *setting, uint64_t samples, uint64_t bits, struct rice_drain *drain);

/* Decodes a piece of the code: the `code_len` bytes at `code`, which begin with byte `drain->bits / 8` of the code, and may end
 * anywhere. Writes the samples of its whole coded data sets to `samples`, which has room for `samples_room` bytes: whole
 * blocks, as many as fit. The drain counts the samples, the bits and the work on the coded data sets that are taken, and
 * `report` repeats these numbers; `written` counts the bytes of this call. The next piece begins with byte `drain->bits / 8`.
 * Returns why it ended, a status of enum rice_status:
 *   RICE_NO_ROOM              No further block fits: take the samples, and call again.
 *   RICE_ONLY_ZEROS           No 1 is left in the piece: the code ends here, or the next piece goes on.
 *   RICE_MORE_CODE            A 1 is left, but no whole coded data set: the code goes on, or it is cut.
 *   RICE_RUN_PAST_SEGMENT, RICE_RESIDUAL_TOO_LARGE
 *                             The code is damaged at block `place`, counted from the beginning of the code. A second call with
 *                             the same piece returns the same.
 *   RICE_TOO_LONG             `drain->bits` and the bits of this piece together are above 2^52. Nothing is done.
 *   RICE_BAD_...              The drain has no legal setting. Nothing is done, and the report is all zeros.
 * From rice_open to the code's end, with pieces of any lengths and room for at least a block, the outputs of all calls, joined,
 * are the output of rice_decode_all. Their first `count` samples are the output of rice_decode. A piece that gave nothing
 * despite this room has to be longer next time. */
uint32_t rice_pull(struct rice_drain *drain, const uint8_t *code, size_t code_len, uint8_t *samples, size_t samples_room,
                   struct rice_report *report);

/* The calls above, with NULL allowed where the length is 0: the library gets the address of a byte, which it does not touch. */
static inline const uint8_t *rice_from(const uint8_t *bytes, size_t length) {
    static const uint8_t none = 0;
    return bytes || length ? bytes : &none;
}

static inline uint8_t *rice_into(uint8_t *bytes, size_t length) {
    static uint8_t none;
    return bytes || length ? bytes : &none;
}

static inline uint32_t rice_spell_here(const struct rice_setting *setting, uint8_t *samples, size_t samples_len) {
    return rice_spell(setting, rice_into(samples, samples_len), samples_len);
}

static inline uint32_t rice_encode_here(const struct rice_setting *setting, const uint8_t *samples, size_t samples_len,
                                        uint8_t *code, size_t code_room, struct rice_report *report) {
    return rice_encode(setting, rice_from(samples, samples_len), samples_len, rice_into(code, code_room), code_room, report);
}

static inline uint32_t rice_decode_here(const struct rice_setting *setting, uint64_t count, const uint8_t *code, size_t code_len,
                                        uint8_t *samples, size_t samples_room, struct rice_report *report) {
    return rice_decode(setting, count, rice_from(code, code_len), code_len, rice_into(samples, samples_room), samples_room,
                       report);
}

static inline uint32_t rice_decode_all_here(const struct rice_setting *setting, const uint8_t *code, size_t code_len,
                                            uint8_t *samples, size_t samples_room, struct rice_report *report) {
    return rice_decode_all(setting, rice_from(code, code_len), code_len, rice_into(samples, samples_room), samples_room, report);
}

static inline uint32_t rice_push_here(struct rice_feed *feed, const uint8_t *samples, size_t samples_len, uint8_t *code,
                                      size_t code_room, struct rice_report *report) {
    return rice_push(feed, rice_from(samples, samples_len), samples_len, rice_into(code, code_room), code_room, report);
}

static inline uint32_t rice_finish_here(const struct rice_feed *feed, const uint8_t *samples, size_t samples_len, uint8_t *code,
                                        size_t code_room, struct rice_report *report) {
    return rice_finish(feed, rice_from(samples, samples_len), samples_len, rice_into(code, code_room), code_room, report);
}

static inline uint32_t rice_pull_here(struct rice_drain *drain, const uint8_t *code, size_t code_len, uint8_t *samples,
                                      size_t samples_room, struct rice_report *report) {
    return rice_pull(drain, rice_from(code, code_len), code_len, rice_into(samples, samples_room), samples_room, report);
}

#define rice_spell rice_spell_here
#define rice_encode rice_encode_here
#define rice_decode rice_decode_here
#define rice_decode_all rice_decode_all_here
#define rice_push rice_push_here
#define rice_finish rice_finish_here
#define rice_pull rice_pull_here

/* The machine that the library is for, and the layout of its structs. */
#if __BYTE_ORDER__ != __ORDER_LITTLE_ENDIAN__
#error "rice.h: the library is for machines with the least significant byte first"
#endif
#define RICE_WANTS(what, is_so) extern const char rice_h_wants_##what[(is_so) ? 1 : -1]
#define RICE_AT(type, field, place) (offsetof(struct rice_##type, field) == (place))
RICE_WANTS(pointers_of_eight_bytes, sizeof(void *) == 8);
RICE_WANTS(the_setting_of_the_library, sizeof(struct rice_setting) == 20 && RICE_AT(setting, bits, 0) && RICE_AT(setting, block, 4) &&
    RICE_AT(setting, interval, 8) && RICE_AT(setting, is_signed, 12) && RICE_AT(setting, msb, 13) && RICE_AT(setting, three, 14) &&
    RICE_AT(setting, preprocess, 15) && RICE_AT(setting, pad, 16) && RICE_AT(setting, any_block, 17));
RICE_WANTS(the_report_of_the_library, sizeof(struct rice_report) == 40 && RICE_AT(report, samples, 0) && RICE_AT(report, bits, 8) &&
    RICE_AT(report, steps, 16) && RICE_AT(report, written, 24) && RICE_AT(report, place, 32));
RICE_WANTS(the_feed_of_the_library, sizeof(struct rice_feed) == RICE_FEED_SIZE && RICE_AT(feed, setting, 0) && RICE_AT(feed, samples, 24) &&
    RICE_AT(feed, bits, 32) && RICE_AT(feed, steps, 40) && RICE_AT(feed, previous, 48) && RICE_AT(feed, start, 56) &&
    RICE_AT(feed, waiting, 60) && RICE_AT(feed, waiting_bits, 64));
RICE_WANTS(the_drain_of_the_library, sizeof(struct rice_drain) == RICE_DRAIN_SIZE && RICE_AT(drain, setting, 0) &&
    RICE_AT(drain, samples, 24) && RICE_AT(drain, bits, 32) && RICE_AT(drain, steps, 40) && RICE_AT(drain, previous, 48) &&
    RICE_AT(drain, block, 56) && RICE_AT(drain, run, 60));
#undef RICE_AT
#undef RICE_WANTS

/* Returns the meaning of a status in words. */
static inline const char *rice_status_text(uint32_t status) {
    switch ((enum rice_status)status) {
    case RICE_DONE: return "done";
    case RICE_BAD_BITS: return "bits per sample must be 1 to 32";
    case RICE_BAD_BLOCK: return "block size must be 8, 16, 32 or 64, or with any_block even, 2 to 64";
    case RICE_BAD_INTERVAL: return "interval must be 1 to 4096";
    case RICE_SAMPLE_OUT_OF_RANGE: return "a sample is out of range";
    case RICE_INPUT_CUT: return "input ends inside a sample";
    case RICE_CODE_ENDS: return "code ends too early";
    case RICE_RUN_PAST_SEGMENT: return "a run passes its segment";
    case RICE_RESIDUAL_TOO_LARGE: return "a residual is too large";
    case RICE_NO_ROOM: return "no room in the output";
    case RICE_TOO_LONG: return "input is too long";
    case RICE_ONLY_ZEROS: return "only zeros are left of the piece";
    case RICE_MORE_CODE: return "more of the code is needed";
    case RICE_BAD_PLACE: return "no interval can begin there";
    }
    return "no status";
}

#ifdef __cplusplus
}
#endif

#endif
