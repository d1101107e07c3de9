/*
 * shortlist.h - best runs of a dredge pump log, for C11 and C++17.
 *
 * Two calls take a stream of wish and run records and mark the runs that no
 * other run betters. Both give the same marks; they differ in how they find
 * them and in what they refuse. Link with libshortlist (pkg-config shortlist).
 *
 * THE STREAM is a string of records: one byte of kind, then a body whose length
 * the kind fixes. Numbers of four bytes are least byte first; lo, hi, z, low,
 * up and values are signed, step is unsigned.
 *
 *   kind             body                                          body bytes
 *   01 LOWEST        column, lo, hi, step                          13
 *   02 HIGHEST       column, lo, hi, step                          13
 *   03 AROUND        column, lo, hi, step, z                       17
 *   04 BETWEEN       column, lo, hi, step, low, up                 21
 *   05 LAYERED       column, top layer (1-15), layer of others     3
 *   06 NAMED         value, layer (0 to its wish's top)            5
 *   07 RUN           eight values, columns 0 to 7                  32
 *   08 (two sides)   column, lo, hi, step, low, up                 21
 *
 * Kinds 01 to 05 and 08 are wishes: one to eight of them, each on a column of
 * its own.
 * NAMED follows directly on LAYERED or NAMED and belongs to that wish; up to 64
 * in all. Runs come after all wishes, up to 1,024; the first is row 0.
 *
 * The level of a value is its distance from what is wished (v - lo, hi - v,
 * |v - z|, or how far v lies outside low..up) divided by step and rounded up;
 * for LAYERED it is the layer of the first NAMED with that value, else the
 * layer of other values. Kind 08 has the distance of BETWEEN and keeps what lies
 * below low..up apart from what lies above: its level L is a pair of levels,
 * (0, 0) inside, (L, L - 1) above and (L - 1, L) below, and each of the two
 * counts as a level. Row a betters row b when no level of a is above b's and one
 * is below. A row is on the shortlist when no row betters it: rows of equal
 * levels do not better each other.
 *
 * WHAT BOTH CALLS PROMISE, for every content of the buffers and every number:
 *
 * - The call ends. Its result is the number of shortlisted rows (0 to 1,024),
 *   or minus one of the refusal numbers below.
 * - Accepted: with R the number of runs in the stream, marks[0] .. marks[R-1]
 *   are written, 1 for a shortlisted row and 0 for any other; whatever stood
 *   there is overwritten. Bytes from marks[R] on are unchanged.
 * - Refused: no byte of marks changes.
 * - The stream is only read. Nothing else is read or written, nothing is
 *   allocated, nothing is kept from one call to the next, errno stays as it is.
 * - The result and the marks hang on the arguments alone. Where the runs of a
 *   stream are put in another order, each takes its mark along.
 *
 * WHAT THE CALLER SEES TO:
 *
 * - stream points to stream_len readable bytes and marks to marks_len writable
 *   bytes. A pointer whose length is 0 may be NULL.
 * - The two buffers do not overlap, and no other thread writes to them or
 *   reads the marks during the call. Any number of threads may call at once,
 *   each with marks of its own: there is no shared state.
 * - The thread has SHORTLIST_STACK_BYTES of stack left.
 */
#ifndef SHORTLIST_H
#define SHORTLIST_H

#include <stddef.h>
#include <stdint.h>

#ifdef __cplusplus
extern "C" {
#endif

/* Refusal numbers; a call returns minus the first that is due, in the order
 * given at the call. Reading a stream checks record by record for 2 to 7, in
 * that order for each record, and then for 1. */

/* The stream has no wish. That is the empty stream: any other first record is a
 * wish or is refused. */
#define SHORTLIST_NO_WISH 1
/* A record of unknown kind: not 01 to 08. */
#define SHORTLIST_UNKNOWN_KIND 2
/* A record out of place: a wish after a run, a run before any wish, NAMED after
 * anything but LAYERED or NAMED. */
#define SHORTLIST_OUT_OF_PLACE 3
/* The stream ends inside a record. */
#define SHORTLIST_CUT_SHORT 4
/* A column above 7, or one that an earlier wish has taken. */
#define SHORTLIST_BAD_COLUMN 5
/* lo above hi, step 0, z or low..up not inside lo..hi, low above up; a top layer
 * not 1 to 15, a layer above the top. */
#define SHORTLIST_BAD_FIGURE 6
/* A wish whose greatest level over lo..hi is above 65,535, a 65th NAMED, or a
 * 1,025th run. */
#define SHORTLIST_TOO_MANY 7
/* A run's value lies outside lo..hi of the wish on its column. */
#define SHORTLIST_VALUE_OUTSIDE 8
/* Lattice only: the product of (greatest level + 1) over the wishes, twice for
 * one of kind 08, is above SHORTLIST_MAX_NODES. The window call takes the same
 * stream. */
#define SHORTLIST_TOO_MANY_NODES 9
/* marks_len is below the number of runs; for the window call also w not 1 to
 * SHORTLIST_MAX_WINDOW. */
#define SHORTLIST_BAD_BUFFER 10
/* Lattice only: the budget is below the crossings that this log needs. */
#define SHORTLIST_BUDGET_SPENT 11

/* Numbers of calls that this archive does not have: neither call below returns
 * one of them. They stand here so that the table is whole. */

/* Which run beat a row: no such row. */
#define SHORTLIST_NO_SUCH_ROW 12
/* Which run beat a row: the row is on the shortlist itself. */
#define SHORTLIST_ROW_IS_BEST 13
/* Shift sheet: a row's mark is not 0 or 1. */
#define SHORTLIST_BAD_MARK 14
/* Shift sheet: the output is too short for all pages. */
#define SHORTLIST_OUTPUT_SHORT 15

/* Limits. */

/* Runs in a stream; so many mark bytes are always enough. */
#define SHORTLIST_MAX_RUNS 1024
/* Wishes in a stream. */
#define SHORTLIST_MAX_WISHES 8
/* NAMED records in a stream. */
#define SHORTLIST_MAX_NAMED 64
/* The longest stream that can be accepted; a longer one is refused. */
#define SHORTLIST_MAX_STREAM_BYTES 34334
/* Lattice nodes. */
#define SHORTLIST_MAX_NODES 32768
/* Window entries. */
#define SHORTLIST_MAX_WINDOW 1024
/* A budget that suffices for every log: with it 11 never comes. */
#define SHORTLIST_ENOUGH_BUDGET 262144
/* Stack that a call may take: measured, and rounded up generously. */
#define SHORTLIST_STACK_BYTES 131072

/* Finds the shortlist by walking a lattice of all combinations of levels. The
 * walk crosses each edge that leaves a reached node once, and budget is how many
 * crossings it may make: the call is accepted exactly when budget is at least
 * the log's crossings, and never makes more.
 *
 * Refusals in order: 2 to 7 record by record, 1; 10; 8; 9; 11. */
int32_t shortlist_lattice(const uint8_t *stream, size_t stream_len,
                          uint8_t *marks, size_t marks_len, uint32_t budget);

/* Finds the shortlist by comparing rows with a window of up to w entries, in as
 * many passes as that takes: at most n(n - 1)/2 comparisons for n runs, whatever
 * w is. Never refuses for the number of levels.
 *
 * Refusals in order: 2 to 7 record by record, 1; 10; 8. */
int32_t shortlist_window(const uint8_t *stream, size_t stream_len,
                         uint8_t *marks, size_t marks_len, uint32_t w);

#ifdef __cplusplus
}
#endif

#endif
