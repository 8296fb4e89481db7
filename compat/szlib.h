/*
 * szlib.h - the C interface of libaec's szlib, over librice: what HDF5's SZIP filter calls. Link with -lsz.
 *
 * Names, values and the layout of the struct are szlib's.
 */
#ifndef SZLIB_H
#define SZLIB_H

#include "libaec.h"

#ifdef __cplusplus
extern "C" {
#endif

/* Options. Those that are not explained change nothing. */
#define SZ_ALLOW_K13_OPTION_MASK 1
#define SZ_CHIP_OPTION_MASK 2
#define SZ_EC_OPTION_MASK 4
#define SZ_LSB_OPTION_MASK 8
#define SZ_MSB_OPTION_MASK 16  /* the most significant byte of a pixel comes first */
#define SZ_NN_OPTION_MASK 32   /* pixels are predicted from the one before */
#define SZ_RAW_OPTION_MASK 128

/* What calls return; AEC_DATA_ERROR besides. */
#define SZ_OK AEC_OK
#define SZ_OUTBUFF_FULL 2
#define SZ_NO_ENCODER_ERROR (-1)
#define SZ_PARAM_ERROR AEC_CONF_ERROR
#define SZ_MEM_ERROR AEC_MEM_ERROR

#define SZ_MAX_PIXELS_PER_BLOCK 32
#define SZ_MAX_BLOCKS_PER_SCANLINE 128
#define SZ_MAX_PIXELS_PER_SCANLINE (SZ_MAX_BLOCKS_PER_SCANLINE * SZ_MAX_PIXELS_PER_BLOCK)

typedef struct SZ_com_t_s {
    int options_mask;
    int bits_per_pixel;       /* 1 to 32, or 64; of 32 and 64 each byte of a pixel is a plane of its own */
    int pixels_per_block;     /* even, 2 to 32 */
    int pixels_per_scanline;  /* each scanline is filled to whole blocks, at most 4096 */
} SZ_com_t;

/* Compresses `sourceLen` bytes into the `*destLen` bytes at `dest`, and sets `*destLen` to those that it took. SZ_OUTBUFF_FULL if
 * the code has no room there. */
int SZ_BufftoBuffCompress(void *dest, size_t *destLen, const void *source, size_t sourceLen, SZ_com_t *param);

/* Decompresses the `*destLen` bytes that are wanted. AEC_DATA_ERROR if the code is damaged or has fewer. */
int SZ_BufftoBuffDecompress(void *dest, size_t *destLen, const void *source, size_t sourceLen, SZ_com_t *param);

/* 1: there is an encoder. */
int SZ_encoder_enabled(void);

#ifdef __cplusplus
}
#endif

#endif
