/* What a stream holds, laid out for the engines. */
#ifndef INPUT_H
#define INPUT_H

#include <stddef.h>
#include <stdint.h>

enum { COLUMNS = 8, MAX_ROWS = 1024, MAX_NAMES = 64, MAX_NODES = 32768 };
enum { RUN_BYTES = 33 };

/*
 * Wishes by column, not by place: rows are compared the same in any order of
 * levels, and eight columns fill a vector register. A column without a wish
 * takes every value and has level 0. All distances are how far a value lies
 * outside low..up: for LOWEST both are lo, for HIGHEST hi, for AROUND z.
 */
struct input {
    int32_t lo[COLUMNS], hi[COLUMNS];
    double low[COLUMNS], up[COLUMNS];
    double step[COLUMNS], per_step[COLUMNS];
    uint32_t wishes;
    uint32_t taken;          /* a bit for each column with a wish */
    uint8_t column[COLUMNS]; /* by place */
    uint32_t top[COLUMNS];   /* greatest level, by place */
    uint32_t layered;        /* how many of the wishes are LAYERED */
    uint32_t names;
    struct layers {
        uint8_t column, others, top;
        uint32_t first, end; /* its names */
    } layers[COLUMNS];
    int32_t name[MAX_NAMES];
    uint8_t layer[MAX_NAMES];
    const uint8_t *runs; /* the first run record; they follow on each other */
    size_t rows;
};

/* The refusal number of reading, or 0. The runs stay where they are. */
int read_input(const uint8_t *stream, size_t len, struct input *in);

#endif
