/* Level rows: eight numbers of 16 bits, one for each column, in one register.
 * SSE2 belongs to every x86-64. */
#ifndef LEVELS_H
#define LEVELS_H

#include "input.h"

#include <emmintrin.h>
#include <string.h>

/* SSE2 packs and compares signed numbers: the window takes its levels moved
 * down by 32,768; the lattice has no level above 32,767. */
enum { PLAIN = 0, MOVED = -32768 };

/* Adding and taking away 2^52 rounds a smaller double to a whole number, and
 * the low bits of a double near 3 * 2^51 are a whole number of either sign. */
#define TWO_52 4503599627370496.0
#define SIGNED_52 6755399441055744.0

/*
 * The levels of two values: the distance divided by step, rounded up. Exact:
 * values, distances (33 bits) and steps are exact in double, and a level is at
 * most 65,535, so the quotient is off by less than 2^-35, while a quotient that
 * is not whole lies at least 2^-32 from whole numbers. So `whole` is the
 * quotient rounded up or down, and whole * step, below 2^53, tells which.
 */
static inline __m128 two_levels(const struct input *in, int c, __m128i values, int moved)
{
    __m128d v = _mm_cvtepi32_pd(values);
    __m128d below = _mm_sub_pd(_mm_loadu_pd(in->low + c), v);
    __m128d above = _mm_sub_pd(v, _mm_loadu_pd(in->up + c));
    __m128d far = _mm_max_pd(_mm_max_pd(below, above), _mm_setzero_pd());
    __m128d whole = _mm_mul_pd(far, _mm_loadu_pd(in->per_step + c));
    whole = _mm_sub_pd(_mm_add_pd(whole, _mm_set1_pd(TWO_52)), _mm_set1_pd(TWO_52));
    __m128d short_of = _mm_cmplt_pd(_mm_mul_pd(whole, _mm_loadu_pd(in->step + c)), far);
    __m128d level = _mm_add_pd(whole, _mm_and_pd(short_of, _mm_set1_pd(1.0)));
    return _mm_castpd_ps(_mm_add_pd(level, _mm_set1_pd(SIGNED_52 + moved)));
}

/* The levels of four columns, as numbers of 32 bits. Where none of them has a
 * wish they are 0. */
static inline __m128i four_levels(const struct input *in, int c, __m128i values, int moved)
{
    if ((in->taken >> c & 15) == 0)
        return _mm_set1_epi32(moved);
    __m128 first = two_levels(in, c, values, moved);
    __m128 second = two_levels(in, c + 2, _mm_shuffle_epi32(values, _MM_SHUFFLE(3, 2, 3, 2)), moved);
    return _mm_castps_si128(_mm_shuffle_ps(first, second, _MM_SHUFFLE(2, 0, 2, 0)));
}

/* The layer of the first name with the value: walking down, the first is met
 * last, and no branch hangs on the values. */
static inline int layer_of(const struct input *in, const struct layers *layers, int32_t v)
{
    int layer = layers->others;
    for (uint32_t i = layers->end; i-- > layers->first;)
        layer = in->name[i] == v ? in->layer[i] : layer;
    return layer;
}

static inline __m128i with_layers(const struct input *in, const uint8_t *run, __m128i levels, int moved)
{
    int16_t level[COLUMNS];
    _mm_storeu_si128((__m128i *)level, levels);
    for (uint32_t i = 0; i < in->layered; i++) {
        const struct layers *layers = &in->layers[i];
        int32_t v;
        memcpy(&v, run + 4 * layers->column, 4);
        level[layers->column] = (int16_t)(layer_of(in, layers, v) + moved);
    }
    return _mm_loadu_si128((const __m128i *)level);
}

static inline __m128i four_outside(const struct input *in, int c, __m128i values)
{
    __m128i lo = _mm_loadu_si128((const __m128i *)(in->lo + c));
    __m128i hi = _mm_loadu_si128((const __m128i *)(in->hi + c));
    return _mm_or_si128(_mm_cmpgt_epi32(lo, values), _mm_cmpgt_epi32(values, hi));
}

/* The levels of row r. Where a value lies outside lo..hi of its wish, a bit of
 * `outside` is set and the levels mean nothing. The values of a run stand in
 * the stream as this machine holds them, least byte first. */
static inline __m128i levels_of_row(const struct input *in, size_t r, int moved, __m128i *outside)
{
    const uint8_t *run = in->runs + r * RUN_BYTES + 1;
    __m128i first = _mm_loadu_si128((const __m128i *)run);
    __m128i second = _mm_loadu_si128((const __m128i *)(run + 16));
    *outside = _mm_or_si128(*outside, _mm_or_si128(four_outside(in, 0, first), four_outside(in, 4, second)));
    __m128i levels = _mm_packs_epi32(four_levels(in, 0, first, moved), four_levels(in, 4, second, moved));
    return in->layered == 0 ? levels : with_layers(in, run, levels, moved);
}

static inline int is_some(__m128i outside)
{
    return _mm_movemask_epi8(outside) != 0;
}

#endif
