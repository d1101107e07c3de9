/*
 * The careful C peer: the calls of shortlist.h under other names, with the same
 * results on every input. C11, no allocation, no state.
 */
#ifndef PEER_H
#define PEER_H

#include <stddef.h>
#include <stdint.h>

/* Lattice walk by blocks of nodes that have their first levels in common. */
int32_t peer_lattice(const uint8_t *stream, size_t stream_len, uint8_t *marks,
                     size_t marks_len, uint32_t budget);

/* The same walk node by node, so that what blocks gain can be seen. */
int32_t peer_lattice_nodes(const uint8_t *stream, size_t stream_len,
                           uint8_t *marks, size_t marks_len, uint32_t budget);

/* Window machine over level rows of eight u16. */
int32_t peer_window(const uint8_t *stream, size_t stream_len, uint8_t *marks,
                    size_t marks_len, uint32_t w);

/* Every row against every row until one betters it; w is checked and unused. */
int32_t peer_nested(const uint8_t *stream, size_t stream_len, uint8_t *marks,
                    size_t marks_len, uint32_t w);

/* The machine's count for an accepted stream, for the check before timing. */
uint32_t peer_window_compares(const uint8_t *stream, size_t stream_len,
                              uint32_t w);

#endif
