/* Reading: checks 2 to 7 record by record, then 1. */
#include "input.h"

#include <string.h>

enum { LOWEST = 1, HIGHEST, AROUND, BETWEEN, LAYERED, NAMED, RUN };

static const uint8_t record_bytes[8] = {0, 14, 14, 18, 22, 4, 6, RUN_BYTES};

static int32_t signed_at(const uint8_t *at)
{
    uint32_t u = at[0] | (uint32_t)at[1] << 8 | (uint32_t)at[2] << 16 | (uint32_t)at[3] << 24;
    int32_t v;
    memcpy(&v, &u, 4);
    return v;
}

/* Levels of whole lists are made in double; the greatest level is made here
 * once for each wish, in integers. */
static uint64_t greatest_level(int64_t lo, int64_t hi, int64_t low, int64_t up, uint32_t step)
{
    uint64_t below = (uint64_t)(low - lo), above = (uint64_t)(hi - up);
    uint64_t far = below > above ? below : above;
    return (far + step - 1) / step;
}

static void place_wish(struct input *in, uint8_t column, uint32_t top)
{
    in->column[in->wishes] = column;
    in->top[in->wishes] = top;
    in->wishes++;
}

static int read_layered(const uint8_t *record, struct input *in)
{
    uint8_t top = record[2], others = record[3];
    if (top < 1 || top > 15 || others > top)
        return 6;
    struct layers *layers = &in->layers[in->layered++];
    layers->column = record[1];
    layers->others = others;
    layers->top = top;
    layers->first = layers->end = in->names;
    place_wish(in, record[1], top);
    return 0;
}

static int read_numeric(const uint8_t *record, struct input *in)
{
    uint8_t kind = record[0], c = record[1];
    int32_t lo = signed_at(record + 2), hi = signed_at(record + 6);
    uint32_t step = (uint32_t)signed_at(record + 10);
    int32_t low = kind == LOWEST ? lo : kind == HIGHEST ? hi : signed_at(record + 14);
    int32_t up = kind == BETWEEN ? signed_at(record + 18) : low;
    if (step == 0 || lo > hi || low < lo || up < low || hi < up)
        return 6;
    uint64_t top = greatest_level(lo, hi, low, up, step);
    if (top > 65535)
        return 7;
    in->lo[c] = lo;
    in->hi[c] = hi;
    in->low[c] = low;
    in->up[c] = up;
    in->step[c] = step;
    in->per_step[c] = 1.0 / step;
    place_wish(in, c, (uint32_t)top);
    return 0;
}

static int read_name(const uint8_t *record, struct input *in)
{
    struct layers *layers = &in->layers[in->layered - 1];
    if (record[5] > layers->top)
        return 6;
    if (in->names == MAX_NAMES)
        return 7;
    in->name[in->names] = signed_at(record + 1);
    in->layer[in->names] = record[5];
    layers->end = ++in->names;
    return 0;
}

/* One wish or name; `before` is the kind of the record before it. */
static int read_record(const uint8_t *record, size_t left, uint8_t before, struct input *in)
{
    uint8_t kind = record[0];
    if (kind == 0 || kind > RUN)
        return 2;
    if (kind == NAMED && before != LAYERED && before != NAMED)
        return 3;
    if (left < record_bytes[kind])
        return 4;
    if (kind == NAMED)
        return read_name(record, in);
    uint8_t c = record[1];
    if (c >= COLUMNS || in->taken >> c & 1)
        return 5;
    in->taken |= 1u << c;
    return kind == LAYERED ? read_layered(record, in) : read_numeric(record, in);
}

/* Only runs can follow on a run, so one byte in 33 is looked at. */
static int read_runs(const uint8_t *at, const uint8_t *end, struct input *in)
{
    in->runs = at;
    if (at != end && in->wishes == 0)
        return 3;
    size_t rows = 0;
    for (; at != end; at += RUN_BYTES, rows++) {
        if (*at != RUN)
            return *at == 0 || *at > RUN ? 2 : 3;
        if (end - at < RUN_BYTES)
            return 4;
        if (rows == MAX_ROWS)
            return 7;
    }
    in->rows = rows;
    return 0;
}

static void no_wishes(struct input *in)
{
    in->wishes = in->taken = in->layered = in->names = 0;
    for (int c = 0; c < COLUMNS; c++) {
        in->lo[c] = INT32_MIN;
        in->hi[c] = INT32_MAX;
        in->low[c] = INT32_MIN;
        in->up[c] = INT32_MAX;
        in->step[c] = in->per_step[c] = 1;
    }
}

int read_input(const uint8_t *stream, size_t len, struct input *in)
{
    /* NULL with length 0 is lent too, and nothing may be added to it. */
    if (len == 0)
        return 1;
    const uint8_t *at = stream, *end = stream + len;
    uint8_t before = 0;
    no_wishes(in);
    while (at != end && *at != RUN) {
        int number = read_record(at, (size_t)(end - at), before, in);
        if (number != 0)
            return number;
        before = *at;
        at += record_bytes[before];
    }
    return read_runs(at, end, in);
}
