/* The lattice engine, walked block by block or node by node. */
#include "levels.h"
#include "peer.h"

/* The last word of a block may reach past the nodes. */
enum { WORD = 8, VECTOR = 16, ROOM = MAX_NODES + WORD };
#define ONES UINT64_C(0x0101010101010101)

/* Wishes whose greatest level is 0 have no edges and are left out. */
struct lattice {
    uint32_t digits;
    uint32_t top[COLUMNS], weight[COLUMNS]; /* first wish first */
    int16_t column_weight[COLUMNS];
    uint32_t nodes;
};

/* 9 or 0. */
static int weigh(const struct input *in, struct lattice *l)
{
    uint32_t nodes = 1, at = COLUMNS;
    memset(l->column_weight, 0, sizeof l->column_weight);
    for (uint32_t i = in->wishes; i-- > 0;) {
        if (in->top[i] == 0)
            continue;
        at--;
        l->top[at] = in->top[i];
        l->weight[at] = nodes;
        /* A wish with a level above 0 has at least two, so half the nodes. */
        l->column_weight[in->column[i]] = (int16_t)nodes;
        nodes *= in->top[i] + 1;
        if (nodes > MAX_NODES)
            return 9;
    }
    l->digits = COLUMNS - at;
    memmove(l->top, l->top + at, l->digits * sizeof *l->top);
    memmove(l->weight, l->weight + at, l->digits * sizeof *l->weight);
    l->nodes = nodes;
    return 0;
}

static inline uint16_t node_of(const struct lattice *l, __m128i levels)
{
    __m128i weights = _mm_loadu_si128((const __m128i *)l->column_weight);
    __m128i sums = _mm_madd_epi16(levels, weights);
    sums = _mm_add_epi32(sums, _mm_shuffle_epi32(sums, _MM_SHUFFLE(1, 0, 3, 2)));
    sums = _mm_add_epi32(sums, _mm_shuffle_epi32(sums, _MM_SHUFFLE(2, 3, 0, 1)));
    return (uint16_t)_mm_cvtsi128_si32(sums);
}

static inline uint64_t load(const uint8_t *at)
{
    uint64_t word;
    memcpy(&word, at, WORD);
    return word;
}

static inline void store(uint8_t *at, uint64_t word)
{
    memcpy(at, &word, WORD);
}

/* The bytes of a word that belong to what is left of a block. */
static inline uint64_t mask_of(uint32_t left)
{
    return left < WORD ? (UINT64_C(1) << 8 * left) - 1 : UINT64_MAX;
}

/* A 1 in each byte that is not 0, for bytes below 4. */
static inline uint64_t reached_in(uint64_t bytes)
{
    return (bytes | bytes >> 1) & ONES;
}

/*
 * Crosses the edges of the last wish in a row of nodes, which differ in that
 * wish's level alone: once a node is reached the rest of its row is. Gives the
 * reached nodes.
 */
static inline uint32_t cross_row(uint8_t *row, uint32_t length)
{
    uint32_t reached_nodes = 0;
    uint64_t before = 0;
    for (uint32_t at = 0; at < length; at += WORD) {
        uint64_t mask = mask_of(length - at), bytes = load(row + at);
        if (((bytes & mask) | before) == 0)
            continue;
        /* Sums of the bytes up to each are at most 8: 127 more shows which are not 0. */
        uint64_t sums = reached_in(bytes & mask) * ONES;
        uint64_t reached = ((sums + 127 * ONES) >> 7 & ONES) | before * ONES;
        store(row + at, bytes | ((reached << 8 | before) & mask) << 1);
        reached_nodes += (uint32_t)((reached & mask) * ONES >> 56);
        before = 1;
    }
    return reached_nodes;
}

/* Crosses the edges from each reached node of a block to the block after it. */
static inline void cross_block(uint8_t *block, uint32_t length)
{
    uint32_t at = 0;
    for (; at + VECTOR <= length; at += VECTOR) {
        __m128i from = _mm_loadu_si128((const __m128i *)(block + at));
        __m128i *to = (__m128i *)(block + length + at);
        __m128i bit = _mm_andnot_si128(_mm_cmpeq_epi8(from, _mm_setzero_si128()), _mm_set1_epi8(2));
        _mm_storeu_si128(to, _mm_or_si128(_mm_loadu_si128(to), bit));
    }
    for (; at < length; at += WORD) {
        uint64_t reached = reached_in(load(block + at) & mask_of(length - at));
        store(block + length + at, load(block + length + at) | reached << 1);
    }
}

static inline int is_empty(const uint8_t *block, uint32_t length)
{
    for (uint32_t at = 0; at < length; at += WORD)
        if ((load(block + at) & mask_of(length - at)) != 0)
            return 0;
    return 1;
}

/*
 * Walks a block of rows that have a word each: the edges of its last two wishes.
 * Gives the reached nodes and adds to the crossings.
 */
static uint32_t walk_short_rows(uint8_t *row, uint32_t rows, uint32_t length, uint32_t *made)
{
    uint64_t mask = mask_of(length), entered = 0;
    uint32_t reached_nodes = 0, along = 0, last = 0;
    for (uint32_t r = 0; r < rows; r++, row += length) {
        uint64_t bytes = load(row) | entered;
        uint64_t sums = reached_in(bytes & mask) * ONES;
        uint64_t reached = (sums + 127 * ONES) >> 7 & ONES & mask;
        store(row, bytes | (reached << 8 & mask) << 1);
        entered = reached << 1;
        last = (uint32_t)(reached * ONES >> 56);
        reached_nodes += last;
        along += last - (last > 0);
    }
    *made += along + reached_nodes - last;
    return reached_nodes;
}

/*
 * Walks a block: nodes that have the levels before wish i in common. A smaller
 * block is left by the edges of wish i once all edges into it and within it are
 * crossed. Gives the reached nodes and adds to the crossings.
 */
static uint32_t walk_block(const struct lattice *l, uint32_t i, uint8_t *block, uint32_t *made)
{
    uint32_t length = l->weight[i], top = l->top[i], reached_nodes = 0;
    if (length == 1) {
        uint32_t reached = cross_row(block, top + 1);
        *made += reached - (reached > 0);
        return reached;
    }
    if (l->weight[i + 1] == 1 && length <= WORD)
        return walk_short_rows(block, top + 1, length, made);
    for (uint32_t level = 0; level <= top; level++, block += length) {
        if (is_empty(block, length))
            continue;
        uint32_t reached = walk_block(l, i + 1, block, made);
        reached_nodes += reached;
        if (level < top) {
            cross_block(block, length);
            *made += reached;
        }
    }
    return reached_nodes;
}

/* 11 or 0. */
static int walk_blocks(const struct lattice *l, uint8_t *nodes, uint32_t budget)
{
    uint32_t made = 0;
    if (l->digits > 0)
        walk_block(l, 0, nodes, &made);
    return made > budget ? 11 : 0;
}

/* Adds 1 to the number of a node, given by its digits. */
static inline void count_up(const struct lattice *l, uint32_t *digit)
{
    for (uint32_t i = l->digits; i-- > 0;) {
        if (digit[i]++ < l->top[i])
            return;
        digit[i] = 0;
    }
}

/* Crosses the edges that leave node x; how many. */
static inline uint32_t cross_node(const struct lattice *l, const uint32_t *digit, uint8_t *x)
{
    uint32_t edges = 0;
    for (uint32_t i = 0; i < l->digits; i++) {
        if (digit[i] < l->top[i]) {
            x[l->weight[i]] |= 2;
            edges++;
        }
    }
    return edges;
}

/* 11 or 0. */
static int walk_nodes(const struct lattice *l, uint8_t *nodes, uint32_t budget)
{
    uint32_t digit[COLUMNS] = {0}, made = 0;
    for (uint32_t x = 0; x < l->nodes; x++) {
        if (nodes[x] != 0)
            made += cross_node(l, digit, nodes + x);
        if (made > budget)
            return 11;
        count_up(l, digit);
    }
    return 0;
}

static int all_inside(const struct input *in)
{
    __m128i outside = _mm_setzero_si128();
    for (size_t r = 0; r < in->rows; r++)
        levels_of_row(in, r, PLAIN, &outside);
    return !is_some(outside);
}

/* The node of each row; 8 or 0. */
static int fill_numbers(const struct input *in, const struct lattice *l, uint16_t *number)
{
    __m128i outside = _mm_setzero_si128();
    for (size_t r = 0; r < in->rows; r++)
        number[r] = node_of(l, levels_of_row(in, r, PLAIN, &outside));
    return is_some(outside) ? 8 : 0;
}

static int32_t write_marks(const uint8_t *nodes, const uint16_t *number, size_t rows, uint8_t *marks)
{
    int32_t best = 0;
    for (size_t r = 0; r < rows; r++) {
        marks[r] = nodes[number[r]] == 1;
        best += marks[r];
    }
    return best;
}

typedef int walk(const struct lattice *, uint8_t *, uint32_t);

static inline int32_t engine(const uint8_t *stream, size_t len, uint8_t *marks, size_t marks_len, uint32_t budget, walk *walk)
{
    struct input in;
    struct lattice l;
    uint8_t nodes[ROOM];
    uint16_t number[MAX_ROWS];
    int refusal = read_input(stream, len, &in);
    if (refusal != 0)
        return -refusal;
    if (marks_len < in.rows)
        return -10;
    /* 8 comes before 9. */
    if (weigh(&in, &l) != 0)
        return all_inside(&in) ? -9 : -8;
    if (fill_numbers(&in, &l, number) != 0)
        return -8;
    memset(nodes, 0, l.nodes + WORD);
    for (size_t r = 0; r < in.rows; r++)
        nodes[number[r]] = 1;
    if (walk(&l, nodes, budget) != 0)
        return -11;
    return write_marks(nodes, number, in.rows, marks);
}

int32_t peer_lattice(const uint8_t *stream, size_t stream_len, uint8_t *marks, size_t marks_len, uint32_t budget)
{
    return engine(stream, stream_len, marks, marks_len, budget, walk_blocks);
}

int32_t peer_lattice_nodes(const uint8_t *stream, size_t stream_len, uint8_t *marks, size_t marks_len, uint32_t budget)
{
    return engine(stream, stream_len, marks, marks_len, budget, walk_nodes);
}
