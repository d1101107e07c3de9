/* How much stack the calls take: a thread runs on a painted stack, and what it left of the paint is counted. The header's figure
 * has to cover it. An idle thread's share is taken off. */
#define _POSIX_C_SOURCE 200809L
#include "shortlist.h"

#include <pthread.h>
#include <stdio.h>
#include <stdlib.h>
#include <string.h>

enum { ROOM = 8 << 20, PAINT = 0x5A };

static uint8_t stream[SHORTLIST_MAX_STREAM_BYTES];
static size_t length;
static uint8_t marks[SHORTLIST_MAX_RUNS];

static void *idle(void *nothing) { return nothing; }

static void *lattice(void *nothing) {
    shortlist_lattice(stream, length, marks, sizeof marks, SHORTLIST_ENOUGH_BUDGET);
    return nothing;
}

static void *window(void *nothing) {
    shortlist_window(stream, length, marks, sizeof marks, SHORTLIST_MAX_WINDOW);
    return nothing;
}

/* Stacks grow down: the lowest byte that lost its paint tells how far. */
static size_t taken(void *(*work)(void *)) {
    uint8_t *stack = aligned_alloc(4096, ROOM);
    pthread_attr_t attributes;
    pthread_t thread;
    if (!stack)
        exit(2);
    memset(stack, PAINT, ROOM);
    if (pthread_attr_init(&attributes) || pthread_attr_setstack(&attributes, stack, ROOM) ||
        pthread_create(&thread, &attributes, work, NULL) || pthread_join(thread, NULL))
        exit(2);
    size_t kept = 0;
    while (kept < ROOM && stack[kept] == PAINT)
        kept++;
    pthread_attr_destroy(&attributes);
    free(stack);
    return ROOM - kept;
}

static void put(const uint8_t *bytes, size_t count) {
    memcpy(stream + length, bytes, count);
    length += count;
}

/* Eight wishes of two levels each, the first `sided` of them of kind 08, which has two level parts, and as many runs as there may
 * be, no two of them bettering each other where that can be. */
static void fill(uint8_t sided) {
    length = 0;
    for (uint8_t column = 0; column < 8; column++) {
        const uint8_t lowest[] = {1, column, 0, 0, 0, 0, 1, 0, 0, 0, 1, 0, 0, 0};
        const uint8_t pair[] = {8, column, 0, 0, 0, 0, 1, 0, 0, 0, 1, 0, 0, 0, 0, 0, 0, 0, 0, 0, 0, 0};
        if (column < sided)
            put(pair, sizeof pair);
        else
            put(lowest, sizeof lowest);
    }
    for (unsigned row = 0; row < SHORTLIST_MAX_RUNS; row++) {
        uint8_t run[33] = {7};
        for (unsigned column = 0; column < 8; column++)
            run[1 + 4 * column] = (uint8_t)(row >> column & 1);
        put(run, sizeof run);
    }
}

/* What the calls take with so many wishes of kind 08; the lattice of fifteen parts has as many nodes as there may be. */
static size_t most_of(uint8_t sided, size_t none) {
    fill(sided);
    size_t of_lattice = taken(lattice) - none;
    size_t of_window = taken(window) - none;
    printf("stack: %d of kind 08: lattice %zu bytes, window %zu bytes, the header says %d\n", sided, of_lattice, of_window,
           SHORTLIST_STACK_BYTES);
    return of_lattice > of_window ? of_lattice : of_window;
}

int main(void) {
    size_t none = taken(idle);
    size_t narrow = most_of(0, none);
    size_t wide = most_of(7, none);
    return narrow > SHORTLIST_STACK_BYTES || wide > SHORTLIST_STACK_BYTES;
}
