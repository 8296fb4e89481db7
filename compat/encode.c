/* libaec's calls that encode, over rice_push and rice_finish. */
#include "shared.h"

#include <stdlib.h>
#include <string.h>

struct internal_state {
    struct rice_feed feed;
    struct offsets offsets;
    size_t width;         /* the bytes of a sample */
    size_t segment;       /* the bytes of 64 blocks */
    size_t room;          /* the bytes that surely hold their code */
    size_t written;       /* the bytes of code so far */
    size_t waiting;       /* the bytes in `samples`: less than a segment */
    size_t coded, given;  /* the bytes in `code`, and those of them that the client has */
    bool spells;          /* signed samples don't fill their bytes */
    bool flushes;         /* the last call had AEC_FLUSH */
    bool finished;        /* the end of the code is in `code` */
    uint8_t *samples, *code;
};

/* Gives signed samples the unused bits that the library wants: their sign, or 0 where they are patterns. A client of libaec may have
 * either. */
static void spell(const struct rice_setting *setting, size_t width, uint8_t *samples, size_t size) {
    uint32_t sign = (uint32_t)1 << (setting->bits - 1);
    for (size_t at = 0; at + width <= size; at += width) {
        uint32_t number = 0;
        for (size_t i = 0; i < width; i++) number |= (uint32_t)samples[at + (setting->msb ? width - 1 - i : i)] << 8 * i;
        number &= 2 * sign - 1;
        if (setting->is_signed) number = (number ^ sign) - sign;
        for (size_t i = 0; i < width; i++) samples[at + (setting->msb ? width - 1 - i : i)] = (uint8_t)(number >> 8 * i);
    }
}

static bool must_spell(const struct aec_stream *strm, const struct rice_setting *setting) {
    return strm->flags & AEC_DATA_SIGNED && setting->bits < 8 * rice_sample_width(setting);
}

/* The setting to encode with. */
static int encode_setting(const struct aec_stream *strm, struct rice_setting *setting) {
    return setting_of(strm, strm->flags & AEC_NOT_ENFORCE, setting);
}

EXPORTED int aec_encode_init(struct aec_stream *strm) {
    struct rice_setting setting;
    struct rice_feed feed = {0};
    if (encode_setting(strm, &setting) != AEC_OK) return AEC_CONF_ERROR;
    rice_begin(&setting, &feed);
    size_t width = rice_sample_width(&setting), blocks = (size_t)64 * setting.block;
    /* 14 bits more: 7 that wait from before, and 7 that pad the interval that was begun before. */
    size_t room = rice_push_room(&feed, blocks) + 2;
    struct internal_state *s = calloc(1, sizeof *s + blocks * width + room);
    if (!s) return AEC_MEM_ERROR;
    s->feed = feed;
    s->width = width;
    s->segment = blocks * width;
    s->room = room;
    s->spells = must_spell(strm, &setting);
    s->samples = (uint8_t *)(s + 1);
    s->code = s->samples + s->segment;
    strm->state = s;
    strm->total_in = strm->total_out = 0;
    return AEC_OK;
}

/* Gives the client the buffered code. Returns whether none is left. */
static bool give_code(struct aec_stream *strm) {
    struct internal_state *s = strm->state;
    size_t size = least(s->coded - s->given, strm->avail_out);
    if (size > 0) memcpy(strm->next_out, s->code + s->given, size);
    put(strm, size);
    s->given += size;
    return s->given == s->coded;
}

/* How a call of the library ended, for a client of libaec. */
static int ended(uint32_t status) {
    return status == RICE_DONE ? AEC_OK : AEC_DATA_ERROR;
}

/* The blocks that are left of the interval. */
static size_t blocks_left(const struct internal_state *s) {
    return s->feed.setting.interval - s->feed.start;
}

/* Notes where an interval begins, if one does. */
static void note_interval(struct internal_state *s) {
    if (s->feed.start == 0) add_offset(&s->offsets, 8 * s->written + s->feed.waiting_bits);
}

/* Codes whole segments: at most as many as the client surely has room for, or one. `took` are their bytes. */
static int push(struct aec_stream *strm, const uint8_t *samples, size_t size, size_t *took) {
    struct internal_state *s = strm->state;
    struct rice_report report;
    bool direct = strm->avail_out >= s->room;
    uint64_t before = s->feed.samples;
    note_interval(s);
    uint32_t status = rice_push(&s->feed, samples, size, direct ? strm->next_out : s->code, direct ? strm->avail_out : s->room, &report);
    if (status != RICE_DONE) return ended(status);
    *took = (size_t)(s->feed.samples - before) * s->width;
    s->written += report.written;
    if (direct) {
        put(strm, report.written);
    } else {
        s->coded = report.written;
        s->given = 0;
    }
    return AEC_OK;
}

/* Codes samples of the input, or has them wait for the rest of their segment. */
static int encode_some(struct aec_stream *strm) {
    struct internal_state *s = strm->state;
    size_t block = s->feed.setting.block * s->width, whole = least(64, blocks_left(s)) * block, took;
    if (s->waiting == 0 && !s->spells && strm->avail_in >= whole) {
        size_t segments = strm->avail_out / s->room, size = least(strm->avail_in, (segments ? segments : 1) * s->segment);
        if (s->offsets.wanted) size = least(size, blocks_left(s) * block);
        int status = push(strm, strm->next_in, size, &took);
        if (status == AEC_OK) take(strm, took);
        return status;
    }
    size_t more = least(strm->avail_in, whole - s->waiting);
    memcpy(s->samples + s->waiting, strm->next_in, more);
    take(strm, more);
    s->waiting += more;
    if (s->waiting < whole) return AEC_OK;
    if (s->spells) spell(&s->feed.setting, s->width, s->samples, whole);
    s->waiting = 0;
    return push(strm, s->samples, whole, &took);
}

/* Codes the samples that wait, which are the last. Of no samples libaec has a byte. */
static int finish(struct internal_state *s) {
    struct rice_report report;
    if (s->spells) spell(&s->feed.setting, s->width, s->samples, s->waiting);
    if (s->waiting > 0) note_interval(s);
    uint32_t status = rice_finish(&s->feed, s->samples, s->waiting, s->code, s->room, &report);
    if (status != RICE_DONE) return ended(status);
    s->coded = report.samples > 0 ? report.written : 1;
    s->given = 0;
    s->finished = true;
    return AEC_OK;
}

EXPORTED int aec_encode(struct aec_stream *strm, int flush) {
    struct internal_state *s = strm->state;
    int status = AEC_OK;
    s->flushes = flush == AEC_FLUSH;
    while (status == AEC_OK && give_code(strm)) {
        if (strm->avail_in > 0) {
            status = s->finished ? AEC_STREAM_ERROR : encode_some(strm);
        } else if (s->flushes && !s->finished) {
            status = finish(s);
        } else {
            break;
        }
    }
    return status;
}

EXPORTED int aec_encode_end(struct aec_stream *strm) {
    struct internal_state *s = strm->state;
    bool all = s->finished && s->given == s->coded;
    int status = s->flushes && !all ? AEC_STREAM_ERROR : AEC_OK;
    free(s->offsets.bits);
    free(s);
    strm->state = NULL;
    return status;
}

/* Encodes the samples at `samples`, which are those of the input. */
static int encode_all(struct aec_stream *strm, const struct rice_setting *setting, const uint8_t *samples) {
    struct rice_report report;
    uint32_t status = rice_encode(setting, samples, strm->avail_in, strm->next_out, strm->avail_out, &report);
    put(strm, report.written);
    take(strm, strm->avail_in);
    if (status == RICE_NO_ROOM) return AEC_STREAM_ERROR;
    if (status != RICE_DONE || report.samples > 0) return ended(status);
    if (strm->avail_out == 0) return AEC_STREAM_ERROR;
    *strm->next_out = 0;
    put(strm, 1);
    return AEC_OK;
}

EXPORTED int aec_buffer_encode(struct aec_stream *strm) {
    struct rice_setting setting;
    if (encode_setting(strm, &setting) != AEC_OK) return AEC_CONF_ERROR;
    strm->total_in = strm->total_out = 0;
    if (!must_spell(strm, &setting) || strm->avail_in == 0) return encode_all(strm, &setting, strm->next_in);
    uint8_t *samples = malloc(strm->avail_in);
    if (!samples) return AEC_MEM_ERROR;
    memcpy(samples, strm->next_in, strm->avail_in);
    spell(&setting, rice_sample_width(&setting), samples, strm->avail_in);
    int status = encode_all(strm, &setting, samples);
    free(samples);
    return status;
}

EXPORTED int aec_encode_enable_offsets(struct aec_stream *strm) {
    return enable_offsets(&strm->state->offsets);
}

EXPORTED int aec_encode_count_offsets(struct aec_stream *strm, size_t *rsi_offsets_count) {
    return count_offsets(&strm->state->offsets, rsi_offsets_count);
}

EXPORTED int aec_encode_get_offsets(struct aec_stream *strm, size_t *rsi_offsets, size_t rsi_offsets_count) {
    return get_offsets(&strm->state->offsets, rsi_offsets, rsi_offsets_count);
}
