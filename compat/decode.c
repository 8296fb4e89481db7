/* libaec's calls that decode, over rice_pull. */
#include "shared.h"

#include <stdlib.h>
#include <string.h>

enum {
    LITTLE = 1024,         /* where the client of a stream has less room than so many bytes, .. */
    AHEAD = 4096,          /* .. so many are decoded at once: a call of the library for each few samples is slow */
    MORE_CODE = 272,       /* more bytes than a coded data set of our own has */
    MOST_ZEROS = 32,       /* more bytes of zeros than any coded data set begins with */
    MOST_KEPT = 1 << 20    /* a coded data set of more bytes is refused where it comes in pieces. No coder writes one. */
};

struct internal_state {
    struct rice_drain drain;
    struct offsets offsets;
    size_t block_size;     /* the bytes of a block of this code */
    size_t ahead;          /* the bytes of blocks that are decoded at once where the client has little room */
    size_t held, given;    /* the bytes in `blocks`, and those of them that the client has */
    bool damaged;          /* the code after these is */
    uint8_t *kept;         /* the code that was taken, and whose coded data set isn't whole */
    size_t kept_len, kept_room;
    uint8_t blocks[AHEAD]; /* the blocks for which the client had no room */
};

/* Begins a code so many bits into its first byte. libaec decodes blocks of any size, whatever the flags say. */
static int begin(const struct aec_stream *strm, struct internal_state *s, uint64_t bits) {
    struct rice_setting setting;
    memset(s, 0, offsetof(struct internal_state, blocks));
    if (setting_of(strm, true, &setting) != AEC_OK) return AEC_CONF_ERROR;
    s->block_size = s->ahead = (size_t)setting.block * rice_sample_width(&setting);
    memset(s->blocks, 0, s->ahead);
    return rice_open_at(&setting, 0, bits, &s->drain) == RICE_DONE ? AEC_OK : AEC_DATA_ERROR;
}

EXPORTED int aec_decode_init(struct aec_stream *strm) {
    struct internal_state *s = malloc(sizeof *s);
    if (!s) return AEC_MEM_ERROR;
    int status = begin(strm, s, 0);
    if (status != AEC_OK) {
        free(s);
        return status;
    }
    s->ahead = AHEAD;
    memset(s->blocks, 0, AHEAD);
    strm->state = s;
    strm->total_in = strm->total_out = 0;
    return AEC_OK;
}

/* Gives the client what has room of the blocks that wait. Returns whether there is room for more. */
static bool give_blocks(struct aec_stream *strm, struct internal_state *s) {
    size_t size = least(s->held - s->given, strm->avail_out);
    if (size > 0) memcpy(strm->next_out, s->blocks + s->given, size);
    put(strm, size);
    s->given += size;
    return strm->avail_out > 0;
}

static bool wants_code(uint32_t end) {
    return end == RICE_ONLY_ZEROS || end == RICE_MORE_CODE;
}

/* Decodes from a piece of code: whole blocks to the client, or into `blocks` where the client has little room. `used` are the bytes
 * that are done with. */
static uint32_t pull(struct aec_stream *strm, struct internal_state *s, const uint8_t *code, size_t size, size_t *used) {
    struct rice_report report;
    bool direct = strm->avail_out >= least(s->ahead, LITTLE);
    size_t room = direct ? strm->avail_out : s->ahead;
    if (s->offsets.wanted) room = least(room, (s->drain.setting.interval - s->drain.block) * s->block_size);
    const struct rice_drain before = s->drain;
    uint32_t end = rice_pull(&s->drain, code, size, direct ? strm->next_out : s->blocks, room, &report);
    *used = (size_t)(s->drain.bits / 8 - before.bits / 8);
    if (before.block == 0 && report.written > 0) add_offset(&s->offsets, before.bits);
    s->damaged = end != RICE_NO_ROOM && !wants_code(end);
    if (direct) {
        put(strm, report.written);
    } else {
        s->held = report.written;
        s->given = 0;
    }
    return end;
}

/* Keeps code until more of it comes. */
static int keep(struct internal_state *s, const uint8_t *code, size_t size) {
    size_t length = s->kept_len + size;
    if (s->kept_len > MOST_KEPT) return AEC_MEM_ERROR;
    if (length > s->kept_room) {
        uint8_t *room = realloc(s->kept, 2 * length);
        if (!room) return AEC_MEM_ERROR;
        s->kept = room;
        s->kept_room = 2 * length;
    }
    if (size > 0) memcpy(s->kept + s->kept_len, code, size);
    s->kept_len = length;
    return AEC_OK;
}

/* Decodes from the input itself, and keeps its rest. */
static int pull_input(struct aec_stream *strm, struct internal_state *s, uint32_t *end) {
    size_t used;
    *end = pull(strm, s, strm->next_in, strm->avail_in, &used);
    take(strm, used);
    if (!wants_code(*end)) return AEC_OK;
    int status = keep(s, strm->next_in, *end == RICE_ONLY_ZEROS ? least(strm->avail_in, MOST_ZEROS) : strm->avail_in);
    take(strm, strm->avail_in);
    return status;
}

/* Decodes from what is kept and some of the input after it, until the input can go on alone. */
static int pull_kept(struct aec_stream *strm, struct internal_state *s, uint32_t *end) {
    size_t before = s->kept_len, more = least(strm->avail_in, before + MORE_CODE), used;
    int status = keep(s, strm->next_in, more);
    if (status != AEC_OK) return status;
    *end = pull(strm, s, s->kept, s->kept_len, &used);
    bool wants_more = wants_code(*end) && more == strm->avail_in;
    if (used >= before && !wants_more) {
        take(strm, used - before);
        s->kept_len = 0;
        return AEC_OK;
    }
    take(strm, more);
    s->kept_len -= used;
    memmove(s->kept, s->kept + used, s->kept_len);
    if (*end == RICE_ONLY_ZEROS) s->kept_len = least(s->kept_len, MOST_ZEROS);
    return AEC_OK;
}

/* `flush` says nothing, as in libaec: a client that has no more code calls no more. */
EXPORTED int aec_decode(struct aec_stream *strm, int flush) {
    struct internal_state *s = strm->state;
    bool goes_on = true;
    (void)flush;
    while (give_blocks(strm, s) && goes_on) {
        uint32_t end;
        if (s->damaged) return AEC_DATA_ERROR;
        int status = s->kept_len > 0 ? pull_kept(strm, s, &end) : pull_input(strm, s, &end);
        if (status != AEC_OK) return status;
        goes_on = !wants_code(end) || strm->avail_in > 0;
    }
    return AEC_OK;
}

EXPORTED int aec_decode_end(struct aec_stream *strm) {
    free(strm->state->kept);
    free(strm->state->offsets.bits);
    free(strm->state);
    strm->state = NULL;
    return AEC_OK;
}

/* Decodes a code that is all there. libaec gives some samples of a block that is cut; here it is an error. */
static int decode_all(struct aec_stream *strm, struct internal_state *s) {
    uint32_t end = RICE_NO_ROOM;
    while (give_blocks(strm, s) && end == RICE_NO_ROOM) {
        size_t used;
        end = pull(strm, s, strm->next_in, strm->avail_in, &used);
        take(strm, used);
    }
    take(strm, least(s->drain.bits % 8 > 0, strm->avail_in));
    return end == RICE_NO_ROOM || end == RICE_ONLY_ZEROS ? AEC_OK : AEC_DATA_ERROR;
}

EXPORTED int aec_buffer_decode(struct aec_stream *strm) {
    struct internal_state s;
    int status = begin(strm, &s, 0);
    if (status != AEC_OK) return status;
    strm->total_in = strm->total_out = 0;
    return decode_all(strm, &s);
}

EXPORTED int aec_decode_enable_offsets(struct aec_stream *strm) {
    return enable_offsets(&strm->state->offsets);
}

EXPORTED int aec_decode_count_offsets(struct aec_stream *strm, size_t *rsi_offsets_count) {
    return count_offsets(&strm->state->offsets, rsi_offsets_count);
}

EXPORTED int aec_decode_get_offsets(struct aec_stream *strm, size_t *rsi_offsets, size_t rsi_offsets_count) {
    return get_offsets(&strm->state->offsets, rsi_offsets, rsi_offsets_count);
}

EXPORTED int aec_buffer_seek(struct aec_stream *strm, size_t offset) {
    struct internal_state *s = strm->state;
    struct rice_setting setting = s->drain.setting;
    if (offset / 8 > strm->avail_in) return AEC_MEM_ERROR;
    if (rice_open_at(&setting, 0, offset % 8, &s->drain) != RICE_DONE) return AEC_DATA_ERROR;
    strm->next_in += offset / 8;
    strm->avail_in -= offset / 8;
    s->held = s->given = s->kept_len = 0;
    s->damaged = false;
    return AEC_OK;
}

EXPORTED int aec_decode_range(struct aec_stream *strm, const size_t *rsi_offsets, size_t rsi_offsets_count, size_t pos, size_t size) {
    size_t interval = strm->rsi * strm->state->block_size, number = pos / interval, skipped = pos % interval;
    struct internal_state s;
    struct aec_stream part = *strm;
    if (number >= rsi_offsets_count || rsi_offsets[number] / 8 > strm->avail_in) return AEC_DATA_ERROR;
    if (size > strm->avail_out) return AEC_MEM_ERROR;
    int status = begin(strm, &s, rsi_offsets[number] % 8);
    if (status != AEC_OK) return status;
    uint8_t *bytes = calloc(1, skipped + size + 1);
    if (!bytes) return AEC_MEM_ERROR;
    part.next_in += rsi_offsets[number] / 8;
    part.avail_in -= rsi_offsets[number] / 8;
    part.next_out = bytes;
    part.avail_out = skipped + size;
    status = decode_all(&part, &s);
    if (status == AEC_OK && part.avail_out > 0) status = AEC_DATA_ERROR;
    if (status == AEC_OK && size > 0) {
        memcpy(strm->next_out, bytes + skipped, size);
        put(strm, size);
    }
    free(bytes);
    return status;
}
