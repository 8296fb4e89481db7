/*
 * libaec.h - the C interface of libaec, over librice: what a client of libaec includes, and links with -laec.
 *
 * Names, values and the layout of the struct are libaec's, so that a program that was built with libaec's own header runs on this
 * library, and one that was built with this header on libaec. The calls are those of libaec 1.1; those on offsets and ranges are
 * not in older ones. docs/COMPATIBILITY.md says what differs.
 */
#ifndef LIBAEC_H
#define LIBAEC_H

#include <stddef.h>

#ifdef __cplusplus
extern "C" {
#endif

struct internal_state;

/* What a call is given, and how far it came: like zlib's stream. */
struct aec_stream {
    const unsigned char *next_in;  /* the bytes to take */
    size_t avail_in;               /* how many there are */
    size_t total_in;               /* how many were taken since init */
    unsigned char *next_out;       /* where bytes are put */
    size_t avail_out;              /* how many have room */
    size_t total_out;              /* how many were put since init */
    unsigned int bits_per_sample;  /* 1 to 32 */
    unsigned int block_size;       /* samples of a block: 8, 16, 32 or 64, or see AEC_NOT_ENFORCE */
    unsigned int rsi;              /* blocks of a reference sample interval, 1 to 4096 */
    unsigned int flags;            /* AEC_DATA_.. and the others below */
    struct internal_state *state;  /* the library's own, from init to end */
};

/* Flags. */
#define AEC_DATA_SIGNED 1      /* samples are signed */
#define AEC_DATA_3BYTE 2       /* samples of 17 to 24 bits take three bytes, not four */
#define AEC_DATA_MSB 4         /* the most significant byte of a sample comes first */
#define AEC_DATA_PREPROCESS 8  /* samples are predicted */
#define AEC_RESTRICTED 16      /* the restricted set of options, for up to 4 bits: not had here, init says AEC_CONF_ERROR */
#define AEC_PAD_RSI 32         /* the code of each interval is filled to a byte */
#define AEC_NOT_ENFORCE 64     /* any even number of samples up to 64 makes a block */

/* What calls return. */
#define AEC_OK 0
#define AEC_CONF_ERROR (-1)         /* settings that are not legal, or not had */
#define AEC_STREAM_ERROR (-2)       /* the output has no room for all of the code, or samples come after the end */
#define AEC_DATA_ERROR (-3)         /* damaged code, or samples with unused bits that are set */
#define AEC_MEM_ERROR (-4)          /* no memory, or no room for what was asked */
#define AEC_RSI_OFFSETS_ERROR (-5)  /* offsets were not enabled, or twice */

/* The last argument of aec_encode: AEC_FLUSH once no more samples come. */
#define AEC_NO_FLUSH 0
#define AEC_FLUSH 1

/* Encoding in pieces of any sizes: init, encode until all is taken, encode with AEC_FLUSH until it puts no more, end. */
int aec_encode_init(struct aec_stream *strm);
int aec_encode(struct aec_stream *strm, int flush);
int aec_encode_end(struct aec_stream *strm);

/* Decoding in pieces of any sizes. Whole blocks are put, as soon as their code is there. */
int aec_decode_init(struct aec_stream *strm);
int aec_decode(struct aec_stream *strm, int flush);
int aec_decode_end(struct aec_stream *strm);

/* All at once, with no init or end. */
int aec_buffer_encode(struct aec_stream *strm);
int aec_buffer_decode(struct aec_stream *strm);

/* The offsets of intervals in the code, in bits. Enable them after init; then count and get those of all that was coded. */
int aec_encode_enable_offsets(struct aec_stream *strm);
int aec_encode_count_offsets(struct aec_stream *strm, size_t *rsi_offsets_count);
int aec_encode_get_offsets(struct aec_stream *strm, size_t *rsi_offsets, size_t rsi_offsets_count);
int aec_decode_enable_offsets(struct aec_stream *strm);
int aec_decode_count_offsets(struct aec_stream *strm, size_t *rsi_offsets_count);
int aec_decode_get_offsets(struct aec_stream *strm, size_t *rsi_offsets, size_t rsi_offsets_count);

/* Begins at an offset of an interval, in bits from `next_in`: after init, before aec_decode. */
int aec_buffer_seek(struct aec_stream *strm, size_t offset);

/* Puts `size` bytes of samples from byte `pos` on, of a code that is all at `next_in`, which stays where it is. */
int aec_decode_range(struct aec_stream *strm, const size_t *rsi_offsets, size_t rsi_offsets_count, size_t pos, size_t size);

#ifdef __cplusplus
}
#endif

#endif
