/* What encoding and decoding share. */
#ifndef COMPAT_SHARED_H
#define COMPAT_SHARED_H

#include "libaec.h"

#include <rice.h>

#define EXPORTED __attribute__((visibility("default")))

/* The places in the code where intervals begin, in bits. */
struct offsets {
    size_t *bits;
    size_t count, room;
    bool wanted, failed;  /* whether the client wants them, and memory for one was lacking */
};

/* Makes a setting of the library of a stream's. AEC_CONF_ERROR where there is none. */
int setting_of(const struct aec_stream *strm, bool any_block, struct rice_setting *setting);

/* What the three calls on offsets do, and how one is added, if the client wants them. */
int enable_offsets(struct offsets *offsets);
int count_offsets(const struct offsets *offsets, size_t *count);
int get_offsets(const struct offsets *offsets, size_t *to, size_t count);
void add_offset(struct offsets *offsets, size_t bits);

static inline size_t least(size_t a, size_t b) {
    return a < b ? a : b;
}

/* So many bytes of the input are done with. */
static inline void take(struct aec_stream *strm, size_t size) {
    strm->next_in += size;
    strm->avail_in -= size;
    strm->total_in += size;
}

/* So many bytes of the output are written. */
static inline void put(struct aec_stream *strm, size_t size) {
    strm->next_out += size;
    strm->avail_out -= size;
    strm->total_out += size;
}

#endif
