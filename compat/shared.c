#include "shared.h"

#include <stdlib.h>
#include <string.h>

int setting_of(const struct aec_stream *strm, bool any_block, struct rice_setting *setting) {
    *setting = (struct rice_setting){
        .bits = strm->bits_per_sample,
        .block = strm->block_size,
        .interval = strm->rsi,
        .is_signed = strm->flags & AEC_DATA_SIGNED,
        .msb = strm->flags & AEC_DATA_MSB,
        .three = strm->flags & AEC_DATA_3BYTE,
        .preprocess = strm->flags & AEC_DATA_PREPROCESS,
        .pad = strm->flags & AEC_PAD_RSI,
        .any_block = any_block,
    };
    /* What isn't predicted is a pattern of bits: its code is the same without a sign, and libaec leaves unused bits 0 there. */
    if (!setting->preprocess) setting->is_signed = false;
    if (strm->flags & AEC_RESTRICTED && strm->bits_per_sample <= 8) return AEC_CONF_ERROR;
    return rice_check(setting) == RICE_DONE ? AEC_OK : AEC_CONF_ERROR;
}

int enable_offsets(struct offsets *offsets) {
    if (offsets->wanted) return AEC_RSI_OFFSETS_ERROR;
    offsets->wanted = true;
    return AEC_OK;
}

int count_offsets(const struct offsets *offsets, size_t *count) {
    *count = offsets->count;
    if (!offsets->wanted) return AEC_RSI_OFFSETS_ERROR;
    return offsets->failed ? AEC_MEM_ERROR : AEC_OK;
}

int get_offsets(const struct offsets *offsets, size_t *to, size_t count) {
    if (!offsets->wanted) return AEC_RSI_OFFSETS_ERROR;
    if (offsets->failed || count < offsets->count) return AEC_MEM_ERROR;
    if (offsets->count > 0) memcpy(to, offsets->bits, offsets->count * sizeof *to);
    return AEC_OK;
}

void add_offset(struct offsets *offsets, size_t bits) {
    if (!offsets->wanted || offsets->failed) return;
    if (offsets->count == offsets->room) {
        size_t room = 2 * offsets->room + 64, *more = realloc(offsets->bits, room * sizeof *more);
        offsets->failed = !more;
        if (!more) return;
        offsets->bits = more;
        offsets->room = room;
    }
    offsets->bits[offsets->count++] = bits;
}
