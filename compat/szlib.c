/* szlib's calls, over libaec's. A code holds a chunk of pixels. Those of 32 and 64 bits lie in planes: the first bytes of all pixels,
 * then the second ones, and so on, each a pixel of 8 bits. Then each scanline is filled to whole blocks, the last one too. */
#include "szlib.h"

#include <stdbool.h>
#include <stdlib.h>
#include <string.h>

#define EXPORTED __attribute__((visibility("default")))

/* How a chunk lies in its code, in bytes. */
struct layout {
    size_t planes;  /* how many there are: 4, 8, or 1 */
    size_t pixel;   /* a pixel of a plane */
    size_t line;    /* a scanline */
    size_t filled;  /* a scanline that is filled */
    bool predicts;  /* it is filled with its last pixel, and else with zeros */
};

/* The stream and the layout of a chunk of `size` bytes. Returns whether the parameters have one. */
static bool lay_out(const SZ_com_t *param, size_t size, struct aec_stream *strm, struct layout *layout) {
    size_t bits = (size_t)param->bits_per_pixel, block = (size_t)param->pixels_per_block, line = (size_t)param->pixels_per_scanline;
    bool in_planes = bits == 32 || bits == 64;
    if (param->bits_per_pixel < 1 || param->pixels_per_block < 1 || param->pixels_per_scanline < 1) return false;
    if (line > 4096 * block) return false;
    layout->planes = in_planes ? bits / 8 : 1;
    layout->pixel = in_planes || bits <= 8 ? 1 : bits <= 16 ? 2 : 4;
    layout->line = line * layout->pixel;
    layout->filled = (line + block - 1) / block * block * layout->pixel;
    layout->predicts = param->options_mask & SZ_NN_OPTION_MASK;
    memset(strm, 0, sizeof *strm);
    strm->bits_per_sample = in_planes ? 8 : (unsigned)bits;
    strm->block_size = (unsigned)block;
    strm->rsi = (unsigned)((line + block - 1) / block);
    strm->flags = AEC_NOT_ENFORCE | (param->options_mask & SZ_MSB_OPTION_MASK ? AEC_DATA_MSB : 0)
        | (layout->predicts ? AEC_DATA_PREPROCESS : 0);
    return size % (layout->planes * layout->pixel) == 0;
}

static void to_planes(unsigned char *planes, const unsigned char *pixels, size_t size, size_t count) {
    for (size_t p = 0; p < count; p++) {
        for (size_t i = 0; i < size / count; i++) planes[p * (size / count) + i] = pixels[i * count + p];
    }
}

static void from_planes(unsigned char *pixels, const unsigned char *planes, size_t size, size_t count) {
    for (size_t p = 0; p < count; p++) {
        for (size_t i = 0; i < size / count; i++) pixels[i * count + p] = planes[p * (size / count) + i];
    }
}

/* The bytes of the scanline that begins after `done` bytes. */
static size_t line_at(const struct layout *layout, size_t done, size_t size) {
    return size - done < layout->line ? size - done : layout->line;
}

/* Fills scanlines, and returns how many bytes they are then. */
static size_t fill(unsigned char *filled, const unsigned char *lines, size_t size, const struct layout *layout) {
    unsigned char *to = filled;
    for (size_t done = 0; done < size; done += layout->line) {
        size_t length = line_at(layout, done, size);
        memcpy(to, lines + done, length);
        for (size_t at = length; at < layout->filled; at++) to[at] = layout->predicts ? to[at - layout->pixel] : 0;
        to += layout->filled;
    }
    return (size_t)(to - filled);
}

/* Takes scanlines out of filled ones. */
static void unfill(unsigned char *lines, const unsigned char *filled, size_t size, const struct layout *layout) {
    for (size_t done = 0; done < size; done += layout->line) {
        memcpy(lines + done, filled + done / layout->line * layout->filled, line_at(layout, done, size));
    }
}

EXPORTED int SZ_encoder_enabled(void) {
    return 1;
}

/* No header declares it: netCDF's configure looks whether it is there. */
EXPORTED char SZ_Compress(void);
EXPORTED char SZ_Compress(void) {
    return SZ_OK;
}

/* Encodes what is laid out. */
static int compress(struct aec_stream *strm, const unsigned char *bytes, size_t size, void *dest, size_t *destLen) {
    strm->next_in = bytes;
    strm->avail_in = size;
    strm->next_out = dest;
    strm->avail_out = *destLen;
    int status = aec_buffer_encode(strm);
    if (status == AEC_OK) *destLen = strm->total_out;
    return status == AEC_STREAM_ERROR ? SZ_OUTBUFF_FULL : status;
}

EXPORTED int SZ_BufftoBuffCompress(void *dest, size_t *destLen, const void *source, size_t sourceLen, SZ_com_t *param) {
    struct aec_stream strm;
    struct layout layout;
    if (!lay_out(param, sourceLen, &strm, &layout)) return SZ_PARAM_ERROR;
    bool whole = sourceLen % layout.line == 0 && layout.filled == layout.line;
    if (layout.planes == 1 && whole) return compress(&strm, source, sourceLen, dest, destLen);
    size_t room = (sourceLen / layout.line + 1) * layout.filled;
    unsigned char *bytes = malloc(sourceLen + room);
    if (!bytes) return SZ_MEM_ERROR;
    const unsigned char *lines = source;
    if (layout.planes > 1) {
        to_planes(bytes, source, sourceLen, layout.planes);
        lines = bytes;
    }
    size_t size = fill(bytes + sourceLen, lines, sourceLen, &layout);
    int status = compress(&strm, bytes + sourceLen, size, dest, destLen);
    free(bytes);
    return status;
}

/* Decodes so many bytes, as they are laid out. */
static int decompress(struct aec_stream *strm, unsigned char *bytes, size_t size, const void *source, size_t sourceLen) {
    strm->next_in = source;
    strm->avail_in = sourceLen;
    strm->next_out = bytes;
    strm->avail_out = size;
    int status = aec_buffer_decode(strm);
    return status == AEC_OK && strm->avail_out > 0 ? AEC_DATA_ERROR : status;
}

EXPORTED int SZ_BufftoBuffDecompress(void *dest, size_t *destLen, const void *source, size_t sourceLen, SZ_com_t *param) {
    struct aec_stream strm;
    struct layout layout;
    size_t size = *destLen;
    if (!lay_out(param, size, &strm, &layout)) return SZ_PARAM_ERROR;
    if (size == 0 || (layout.planes == 1 && layout.filled == layout.line)) return decompress(&strm, dest, size, source, sourceLen);
    size_t needed = (size - 1) / layout.line * layout.filled + (size - 1) % layout.line + 1;
    unsigned char *bytes = calloc(1, needed + size);
    if (!bytes) return SZ_MEM_ERROR;
    int status = decompress(&strm, bytes, needed, source, sourceLen);
    if (status == AEC_OK && layout.planes == 1) unfill(dest, bytes, size, &layout);
    if (status == AEC_OK && layout.planes > 1) {
        unfill(bytes + needed, bytes, size, &layout);
        from_planes(dest, bytes + needed, size, layout.planes);
    }
    free(bytes);
    return status;
}
