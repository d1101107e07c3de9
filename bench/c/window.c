/* The window machine. */
#include "compare.h"
#include "peer.h"

/*
 * Entries stand in order of their stamps from `from` up to `to`. A row enters at
 * most once, so the places never run out, and releasing moves `from` on. Each
 * entry has its levels beside it: a scan reads memory in order.
 */
struct window {
    __m128i level[MAX_ROWS];
    uint16_t row[MAX_ROWS];
    uint32_t stamp[MAX_ROWS];
    size_t from, to;
};

struct machine {
    struct window window;
    uint16_t aside_row[MAX_ROWS];
    uint32_t aside_stamp[MAX_ROWS];
    uint32_t clock, compares, released;
};

/* Releases the entries with a stamp below s. */
static void release(struct machine *m, uint32_t s, uint8_t *marks)
{
    struct window *window = &m->window;
    size_t i = window->from;
    for (; i < window->to && window->stamp[i] < s; i++)
        marks[window->row[i]] = 1;
    m->released += (uint32_t)(i - window->from);
    window->from = i;
}

/*
 * Removes the entries from i on that r betters. No entry betters another, so
 * once r betters one none can better r: the rest is compared for this alone.
 */
static void remove_bettered(struct window *window, size_t i, __m128i r)
{
    size_t stay = i;
    for (; i < window->to; i++) {
        unsigned bits = above(window->level[i], r);
        window->level[stay] = window->level[i];
        window->row[stay] = window->row[i];
        window->stamp[stay] = window->stamp[i];
        stay += !second_betters(bits);
    }
    window->to = stay;
}

/* Whether r stays: no entry betters it. The entries that it betters go. */
static int compare_all(struct machine *m, __m128i r)
{
    struct window *window = &m->window;
    size_t from = window->from, to = window->to;
    for (size_t i = from; i < to; i++) {
        unsigned bits = above(window->level[i], r);
        if (first_betters(bits)) {
            m->compares += (uint32_t)(i - from + 1);
            return 0;
        }
        if (second_betters(bits)) {
            remove_bettered(window, i, r);
            break;
        }
    }
    m->compares += (uint32_t)(to - from);
    return 1;
}

/* Reads a row; how many rows are set aside afterwards. */
static size_t read_row(struct machine *m, __m128i r, uint16_t row, size_t w, size_t aside)
{
    struct window *window = &m->window;
    uint32_t stamp = ++m->clock;
    if (!compare_all(m, r))
        return aside;
    if (window->to - window->from < w) {
        window->level[window->to] = r;
        window->row[window->to] = row;
        window->stamp[window->to++] = stamp;
        return aside;
    }
    m->aside_row[aside] = row;
    m->aside_stamp[aside] = stamp;
    return aside + 1;
}

static void run_machine(struct machine *m, const __m128i *table, size_t rows, size_t w, uint8_t *marks)
{
    m->window.from = m->window.to = 0;
    m->clock = m->compares = m->released = 0;
    size_t waiting = 0;
    for (size_t r = 0; r < rows; r++)
        waiting = read_row(m, table[r], (uint16_t)r, w, waiting);
    while (waiting > 0) {
        size_t aside = 0;
        /* What is set aside goes where a row was read before. */
        for (size_t i = 0; i < waiting; i++) {
            uint16_t row = m->aside_row[i];
            release(m, m->aside_stamp[i], marks);
            aside = read_row(m, table[row], row, w, aside);
        }
        waiting = aside;
    }
    release(m, UINT32_MAX, marks);
}

/* Checks and levels: the refusal number or 0. */
static int prepare(const uint8_t *stream, size_t len, size_t marks_len, uint32_t w, struct input *in, __m128i *table)
{
    int number = read_input(stream, len, in);
    if (number != 0)
        return number;
    if (marks_len < in->rows || w == 0 || w > MAX_ROWS)
        return 10;
    return fill_table(in, table);
}

int32_t peer_window(const uint8_t *stream, size_t stream_len, uint8_t *marks, size_t marks_len, uint32_t w)
{
    struct input in;
    struct machine m;
    __m128i table[MAX_ROWS];
    int number = prepare(stream, stream_len, marks_len, w, &in, table);
    if (number != 0)
        return -number;
    if (in.rows > 0)
        memset(marks, 0, in.rows);
    run_machine(&m, table, in.rows, w, marks);
    return (int32_t)m.released;
}

uint32_t peer_window_compares(const uint8_t *stream, size_t stream_len, uint32_t w)
{
    struct input in;
    struct machine m;
    __m128i table[MAX_ROWS];
    uint8_t marks[MAX_ROWS];
    if (prepare(stream, stream_len, MAX_ROWS, w, &in, table) != 0)
        return UINT32_MAX;
    run_machine(&m, table, in.rows, w, marks);
    return m.compares;
}

/* Whether no row of the table betters r. */
static int is_best(const __m128i *table, size_t rows, __m128i r)
{
    for (size_t i = 0; i < rows; i++)
        if (first_betters(above(table[i], r)))
            return 0;
    return 1;
}

int32_t peer_nested(const uint8_t *stream, size_t stream_len, uint8_t *marks, size_t marks_len, uint32_t w)
{
    struct input in;
    __m128i table[MAX_ROWS];
    int number = prepare(stream, stream_len, marks_len, w, &in, table);
    if (number != 0)
        return -number;
    int32_t best = 0;
    for (size_t r = 0; r < in.rows; r++) {
        marks[r] = (uint8_t)is_best(table, in.rows, table[r]);
        best += marks[r];
    }
    return best;
}
