/* The few steps of plain.c that work on many bytes at once, for the two kinds of machine that the benchmark runs on. */
#ifndef LANES_H
#define LANES_H

#include <stdint.h>
#include <string.h>

#define INLINE static inline __attribute__((always_inline))

/* How many marks are looked at at once. */
enum { MARK_BLOCK = 16 };

#if defined __SSE2__

#include <emmintrin.h>

/* The bytes of a word side by side. */
typedef __m128i Lanes;

INLINE Lanes lanes_of(uint64_t word) { return _mm_cvtsi64_si128((long long)word); }
INLINE uint64_t word_of(Lanes lanes) { return (uint64_t)_mm_cvtsi128_si64(lanes); }
INLINE Lanes least_lanes(Lanes a, Lanes b) { return _mm_min_epu8(a, b); }
INLINE Lanes largest_lanes(Lanes a, Lanes b) { return _mm_max_epu8(a, b); }

/* Each byte of a word times its stride, all added. */
INLINE int strides_added(uint64_t word, const int16_t *strides) {
    __m128i bytes = _mm_unpacklo_epi8(lanes_of(word), _mm_setzero_si128());
    __m128i parts = _mm_madd_epi16(bytes, _mm_loadu_si128((const __m128i *)strides));
    parts = _mm_add_epi32(parts, _mm_shuffle_epi32(parts, 0x4e));
    parts = _mm_add_epi32(parts, _mm_shuffle_epi32(parts, 0xb1));
    return _mm_cvtsi128_si32(parts);
}

/* A block of marks, each 0 or 1, as so many bits. */
INLINE unsigned block_of_marks(const uint8_t *marks) {
    return (unsigned)_mm_movemask_epi8(_mm_slli_epi16(_mm_loadu_si128((const __m128i *)marks), 7));
}

/* Leaves a work area zero. A host lends the same areas again and again, so that most places are zero already; and to look at them costs less than to write them. */
static void leave_zero(char *area, int bytes) {
    enum { BLOCK = 1024 };
    for (char *at = area, *end = area + bytes; at < end; at += BLOCK) {
        __m128i a = _mm_setzero_si128(), b = a, c = a, d = a;
        for (int i = 0; i < BLOCK; i += 64) {
            const __m128i *line = (const __m128i *)(at + i);
            a = _mm_or_si128(a, _mm_loadu_si128(line));
            b = _mm_or_si128(b, _mm_loadu_si128(line + 1));
            c = _mm_or_si128(c, _mm_loadu_si128(line + 2));
            d = _mm_or_si128(d, _mm_loadu_si128(line + 3));
        }
        a = _mm_or_si128(_mm_or_si128(a, b), _mm_or_si128(c, d));
        if (_mm_movemask_epi8(_mm_cmpeq_epi8(a, _mm_setzero_si128())) != 0xffff) memset(at, 0, BLOCK);
    }
}

#elif defined __aarch64__

#include <arm_neon.h>

typedef uint8x8_t Lanes;

INLINE Lanes lanes_of(uint64_t word) { return vcreate_u8(word); }
INLINE uint64_t word_of(Lanes lanes) { return vget_lane_u64(vreinterpret_u64_u8(lanes), 0); }
INLINE Lanes least_lanes(Lanes a, Lanes b) { return vmin_u8(a, b); }
INLINE Lanes largest_lanes(Lanes a, Lanes b) { return vmax_u8(a, b); }

INLINE int strides_added(uint64_t word, const int16_t *strides) {
    int16x8_t bytes = vreinterpretq_s16_u16(vmovl_u8(lanes_of(word))), by = vld1q_s16(strides);
    return vaddvq_s32(vmlal_high_s16(vmull_s16(vget_low_s16(bytes), vget_low_s16(by)), bytes, by));
}

/* Byte i of the word goes to bit 56 + i of the product, and no two bits meet on the way. */
INLINE unsigned word_of_marks(const uint8_t *marks) {
    uint64_t word;
    memcpy(&word, marks, sizeof word);
    return (unsigned)(word * UINT64_C(0x0102040810204080) >> 56);
}

INLINE unsigned block_of_marks(const uint8_t *marks) { return word_of_marks(marks) | word_of_marks(marks + 8) << 8; }

/* Here to write costs less than to look: a whole line becomes zero at once. */
static void leave_zero(char *area, int bytes) { memset(area, 0, (size_t)bytes); }

#else
#error "plain.c is written for x86-64 and aarch64"
#endif

#endif
