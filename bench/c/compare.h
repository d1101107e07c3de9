/* Two level rows, moved so that signed compares are right. */
#ifndef COMPARE_H
#define COMPARE_H

#include "levels.h"

/* A bit for each column where a is above b (low byte) or b above a (next). */
static inline unsigned above(__m128i a, __m128i b)
{
    return (unsigned)_mm_movemask_epi8(_mm_packs_epi16(_mm_cmpgt_epi16(a, b), _mm_cmpgt_epi16(b, a)));
}

/* a betters b: nowhere above it, and b somewhere above a. */
static inline int first_betters(unsigned bits)
{
    return (uint8_t)bits == 0 && bits != 0;
}

static inline int second_betters(unsigned bits)
{
    return bits >> 8 == 0 && bits != 0;
}

/* The level table; 8 or 0. */
static inline int fill_table(const struct input *in, __m128i *table)
{
    __m128i outside = _mm_setzero_si128();
    for (size_t r = 0; r < in->rows; r++)
        table[r] = levels_of_row(in, r, MOVED, &outside);
    return is_some(outside) ? 8 : 0;
}

#endif
