/* The flat calls from C, through the header alone. Every buffer is allocated at its exact length, so that valgrind sees a byte
 * read or written past an end. Expected figures are document 01's, and order 2's of document 02 where the kind is 08. */
#include "shortlist.h"

#include <errno.h>
#include <stdbool.h>
#include <stdio.h>
#include <stdlib.h>
#include <string.h>

static int passed, failed;

static void check(bool ok, const char *what) {
    if (ok) {
        passed++;
    } else {
        failed++;
        printf("failed: %s\n", what);
    }
}

/* Streams. */

struct bytes {
    uint8_t at[SHORTLIST_MAX_STREAM_BYTES + 64];
    size_t length;
};

static struct bytes built;

static void byte(unsigned value) { built.at[built.length++] = (uint8_t)value; }

static void number(int64_t value) {
    for (int i = 0; i < 4; i++)
        byte((unsigned)(((uint64_t)value >> (8 * i)) & 255));
}

static void wish(unsigned kind, unsigned column, int64_t lo, int64_t hi, int64_t step) {
    byte(kind);
    byte(column);
    number(lo);
    number(hi);
    number(step);
}

/* Kind 08: BETWEEN's body. */
static void sided(unsigned column, int64_t lo, int64_t hi, int64_t step, int64_t low, int64_t up) {
    wish(8, column, lo, hi, step);
    number(low);
    number(up);
}

static void layered(unsigned column, unsigned top, unsigned others) {
    byte(5);
    byte(column);
    byte(top);
    byte(others);
}

static void named(int64_t value, unsigned layer) {
    byte(6);
    number(value);
    byte(layer);
}

/* A run whose columns from the fourth on are alike. */
static void run_with(int64_t hours, int64_t cubic_metres, int64_t density, int64_t rest) {
    byte(7);
    number(hours);
    number(cubic_metres);
    number(density);
    for (int column = 3; column < 8; column++)
        number(rest);
}

static void run(int64_t hours, int64_t cubic_metres, int64_t density) { run_with(hours, cubic_metres, density, 0); }

static void harbour_wishes(void) {
    built.length = 0;
    wish(2, 1, 0, 1000, 100);
    wish(3, 2, 1000, 1600, 50);
    number(1250);
}

/* The same with kind 08 in place of AROUND. */
static void sided_wishes(void) {
    built.length = 0;
    wish(2, 1, 0, 1000, 100);
    sided(2, 1000, 1600, 50, 1250, 1250);
}

static void harbour_runs(void) {
    run(800, 900, 1300);
    run(650, 1000, 1400);
    run(700, 850, 1250);
    run(720, 880, 1210);
    run(810, 900, 1270);
}

static void harbour(void) {
    harbour_wishes();
    harbour_runs();
}

/* A call on buffers of exact length. */

enum engine { LATTICE, WINDOW };

enum { OLD = 0xA5 };

struct left {
    int32_t result;
    uint8_t marks[2 * SHORTLIST_MAX_RUNS];
    bool stream_kept;
};

static struct left left;

static void call(enum engine engine, size_t marks_len, uint32_t n) {
    uint8_t *stream = malloc(built.length);
    uint8_t *marks = malloc(marks_len);
    if ((!stream && built.length) || (!marks && marks_len)) {
        puts("out of memory");
        exit(1);
    }
    if (built.length)
        memcpy(stream, built.at, built.length);
    if (marks_len)
        memset(marks, OLD, marks_len);
    left.result = engine == LATTICE ? shortlist_lattice(stream, built.length, marks, marks_len, n)
                                    : shortlist_window(stream, built.length, marks, marks_len, n);
    left.stream_kept = !built.length || memcmp(stream, built.at, built.length) == 0;
    if (marks_len)
        memcpy(left.marks, marks, marks_len);
    free(stream);
    free(marks);
}

static bool old_from(size_t from, size_t to) {
    for (size_t i = from; i < to; i++)
        if (left.marks[i] != OLD)
            return false;
    return true;
}

static void accepted(const char *what, enum engine engine, size_t marks_len, uint32_t n, const char *marks) {
    size_t rows = strlen(marks);
    int32_t best = 0;
    bool same = true;
    call(engine, marks_len, n);
    for (size_t i = 0; i < rows; i++) {
        best += marks[i] == '1';
        same = same && left.marks[i] == (marks[i] == '1');
    }
    check(left.result == best, what);
    check(same, what);
    check(old_from(rows, marks_len) && left.stream_kept, what);
}

static void refused(const char *what, enum engine engine, size_t marks_len, uint32_t n, int32_t number_due) {
    call(engine, marks_len, n);
    check(left.result == -number_due, what);
    check(old_from(0, marks_len) && left.stream_kept, what);
}

/* What reading refuses, both calls refuse, whatever the marks and the number are. */
static void unreadable(const char *what, int32_t number_due) {
    refused(what, LATTICE, SHORTLIST_MAX_RUNS, SHORTLIST_ENOUGH_BUDGET, number_due);
    refused(what, WINDOW, SHORTLIST_MAX_RUNS, 64, number_due);
    refused(what, LATTICE, 0, 0, number_due);
    refused(what, WINDOW, 0, 0, number_due);
}

static void unreadable_bytes(const char *what, const char *bytes, size_t length, int32_t number_due) {
    memcpy(built.at, bytes, length);
    built.length = length;
    unreadable(what, number_due);
}

/* Tests. */

static void test_harbour(void) {
    static const uint32_t windows[] = {1, 2, 3, 4, 5, 64, 1023, 1024};
    static const size_t lengths[] = {5, 6, 64, 2048};
    harbour();
    check(built.length == 197, "Harbour log has 197 bytes");
    for (size_t i = 0; i < sizeof lengths / sizeof *lengths; i++) {
        accepted("P7 lattice", LATTICE, lengths[i], SHORTLIST_ENOUGH_BUDGET, "11101");
        for (size_t j = 0; j < sizeof windows / sizeof *windows; j++)
            accepted("P7 window", WINDOW, lengths[i], windows[j], "11101");
    }
    accepted("P8 budget 149", LATTICE, 5, 149, "11101");
    accepted("greatest budget", LATTICE, 5, UINT32_MAX, "11101");
    refused("P8 budget 148", LATTICE, 5, 148, SHORTLIST_BUDGET_SPENT);
    refused("budget 0", LATTICE, 5, 0, SHORTLIST_BUDGET_SPENT);
    for (size_t length = 0; length < 5; length++) {
        refused("marks too short", LATTICE, length, SHORTLIST_ENOUGH_BUDGET, SHORTLIST_BAD_BUFFER);
        refused("marks too short", WINDOW, length, 64, SHORTLIST_BAD_BUFFER);
    }
    refused("w 0", WINDOW, 5, 0, SHORTLIST_BAD_BUFFER);
    refused("w 1,025", WINDOW, 5, 1025, SHORTLIST_BAD_BUFFER);
    refused("greatest w", WINDOW, 5, UINT32_MAX, SHORTLIST_BAD_BUFFER);
}

static void test_value_outside(void) {
    harbour();
    run(800, 1001, 1300);
    refused("1,001 cubic metres", LATTICE, 6, SHORTLIST_ENOUGH_BUDGET, SHORTLIST_VALUE_OUTSIDE);
    refused("1,001 cubic metres", WINDOW, 6, 64, SHORTLIST_VALUE_OUTSIDE);
    refused("10 before 8", LATTICE, 5, SHORTLIST_ENOUGH_BUDGET, SHORTLIST_BAD_BUFFER);
    refused("10 before 8", WINDOW, 5, 64, SHORTLIST_BAD_BUFFER);
}

static void test_reading(void) {
    unreadable_bytes("empty stream", "", 0, SHORTLIST_NO_WISH);
    unreadable_bytes("unknown kind", "\x09", 1, SHORTLIST_UNKNOWN_KIND);
    unreadable_bytes("named value of no wish", "\x06\0\0\0\0\0", 6, SHORTLIST_OUT_OF_PLACE);
    unreadable_bytes("record cut short", "\x05\0", 2, SHORTLIST_CUT_SHORT);
    unreadable_bytes("column above 7", "\x05\x08\x01\0", 4, SHORTLIST_BAD_COLUMN);
    unreadable_bytes("layer above the top", "\x05\0\x01\x02", 4, SHORTLIST_BAD_FIGURE);
    built.length = 0;
    wish(1, 0, INT32_MIN, INT32_MAX, 65536);
    unreadable("P5", SHORTLIST_TOO_MANY);
    built.length = 0;
    run(1, 2, 3);
    unreadable("run before any wish", SHORTLIST_OUT_OF_PLACE);
    harbour();
    wish(1, 5, 0, 9, 1);
    unreadable("wish after a run", SHORTLIST_OUT_OF_PLACE);
    built.length = 0;
    wish(1, 3, 0, 9, 1);
    wish(2, 3, 0, 9, 1);
    unreadable("column taken", SHORTLIST_BAD_COLUMN);
    harbour_wishes();
    for (int i = 0; i < SHORTLIST_MAX_RUNS + 1; i++)
        run(1, 500, 1250);
    unreadable("1,025th run", SHORTLIST_TOO_MANY);
    built.length = 0;
    layered(0, 1, 0);
    for (int i = 0; i < SHORTLIST_MAX_NAMED + 1; i++)
        named(i, 1);
    unreadable("65th named value", SHORTLIST_TOO_MANY);
}

static void test_harbour_with_08(void) {
    sided_wishes();
    harbour_runs();
    check(built.length == 201, "Harbour log with 08 has 201 bytes");
    accepted("Harbour log with 08, w 1", WINDOW, 5, 1, "11101");
    accepted("Harbour log with 08, w 4", WINDOW, 6, 4, "11101");
    accepted("Harbour log with 08, budget 1,752", LATTICE, 5, 1752, "11101");
    refused("Harbour log with 08, budget 1,751", LATTICE, 5, 1751, SHORTLIST_BUDGET_SPENT);
    run(800, 900, 1601);
    refused("08, a density above hi", WINDOW, 6, 64, SHORTLIST_VALUE_OUTSIDE);
    /* 50 under the target and 50 over it: AROUND lists one, 08 both. */
    harbour_wishes();
    run(1, 900, 1200);
    run(1, 800, 1300);
    accepted("AROUND", LATTICE, 2, SHORTLIST_ENOUGH_BUDGET, "10");
    sided_wishes();
    run(1, 900, 1200);
    run(1, 800, 1300);
    accepted("too thin is not too thick, lattice", LATTICE, 2, SHORTLIST_ENOUGH_BUDGET, "11");
    accepted("too thin is not too thick, window", WINDOW, 2, 64, "11");
}

static void test_reading_of_08(void) {
    unreadable_bytes("08 alone", "\x08", 1, SHORTLIST_CUT_SHORT);
    unreadable_bytes("kind 0", "\0", 1, SHORTLIST_UNKNOWN_KIND);
    unreadable_bytes("kind 255", "\xFF", 1, SHORTLIST_UNKNOWN_KIND);
    sided_wishes();
    named(1250, 0);
    unreadable("named value after 08", SHORTLIST_OUT_OF_PLACE);
    sided_wishes();
    sided(2, 0, 9, 1, 4, 5);
    unreadable("08 on a taken column", SHORTLIST_BAD_COLUMN);
    sided_wishes();
    sided(3, 0, 9, 1, 5, 4);
    unreadable("08, low above up", SHORTLIST_BAD_FIGURE);
    sided_wishes();
    sided(3, 0, 65536, 1, 0, 0);
    unreadable("08, M 65,536", SHORTLIST_TOO_MANY);
    sided_wishes();
    byte(9);
    unreadable("unknown kind after 08", SHORTLIST_UNKNOWN_KIND);
}

/* So many wishes of kind 08 with M 1 on either side of 2. */
static void so_many_of_08(unsigned wishes) {
    built.length = 0;
    for (unsigned column = 0; column < wishes; column++)
        sided(column, 1, 3, 1, 2, 2);
}

static void run_of_twos(int64_t hours, int64_t cubic_metres, int64_t density) { run_with(hours, cubic_metres, density, 2); }

/* Up to sixteen level parts. */
static void test_parts(void) {
    so_many_of_08(7);
    wish(1, 7, 2, 3, 1);
    run_of_twos(2, 2, 2);
    accepted("fifteen parts, 245,760 crossings", LATTICE, 1, 245760, "1");
    refused("fifteen parts, a crossing short", LATTICE, 1, 245759, SHORTLIST_BUDGET_SPENT);
    so_many_of_08(8);
    run_of_twos(3, 2, 2);
    run_of_twos(1, 2, 2);
    run_of_twos(2, 3, 1);
    refused("sixteen parts, 65,536 nodes", LATTICE, 3, SHORTLIST_ENOUGH_BUDGET, SHORTLIST_TOO_MANY_NODES);
    accepted("sixteen parts", WINDOW, 3, 2, "111");
    run_of_twos(2, 2, 2);
    accepted("sixteen parts, all inside", WINDOW, 4, 2, "0001");
    built.length = 0;
    sided(1, 0, 180, 1, 0, 0);
    accepted("M 180", LATTICE, 0, 0, "");
    built.length = 0;
    sided(1, 0, 181, 1, 0, 0);
    refused("M 181", LATTICE, 0, 0, SHORTLIST_TOO_MANY_NODES);
}

/* Every prefix of the Harbour log: only those that end with a record are read. */
static void test_prefixes(void) {
    harbour();
    size_t whole = built.length;
    for (size_t length = 0; length <= whole; length++) {
        size_t runs = length >= 32 && (length - 32) % 33 == 0 ? (length - 32) / 33 : 99;
        built.length = length;
        if (runs != 99)
            accepted("prefix", WINDOW, runs, 3, runs == 4 ? "1110" : runs == 5 ? "11101" : &"111"[3 - runs]);
        else
            refused("prefix", WINDOW, 5, 3, length == 0 ? SHORTLIST_NO_WISH : length == 14 ? 0 : SHORTLIST_CUT_SHORT);
    }
}

static void test_nodes(void) {
    built.length = 0;
    wish(1, 1, 0, 127, 1);
    wish(1, 2, 0, 255, 1);
    run(1, 3, 4);
    run(1, 2, 4);
    accepted("P12 128 x 256", LATTICE, 2, SHORTLIST_ENOUGH_BUDGET, "01");
    built.length = 0;
    wish(1, 1, 0, 128, 1);
    wish(1, 2, 0, 255, 1);
    run(1, 3, 4);
    run(1, 2, 4);
    refused("P12 129 x 256", LATTICE, 2, SHORTLIST_ENOUGH_BUDGET, SHORTLIST_TOO_MANY_NODES);
    accepted("P12 129 x 256 by window", WINDOW, 2, 1, "01");
}

/* P10: levels (2,1) (1,2) (0,5) (1,1), and the ends of 32 bits (P4). */
static void test_marked_cases(void) {
    built.length = 0;
    wish(1, 1, 0, 5, 1);
    wish(1, 2, 0, 5, 1);
    run(1, 2, 1);
    run(1, 1, 2);
    run(1, 0, 5);
    run(1, 1, 1);
    accepted("P10 window", WINDOW, 4, 2, "0011");
    accepted("P10 lattice", LATTICE, 4, 41, "0011");
    refused("P10 lattice, 41 crossings", LATTICE, 4, 40, SHORTLIST_BUDGET_SPENT);
    built.length = 0;
    wish(1, 1, INT32_MIN, INT32_MAX, 65537);
    run(1, 0, 0);
    run(1, INT32_MAX, 0);
    run(1, INT32_MIN, 0);
    accepted("P4", WINDOW, 3, 64, "001");
}

static void test_no_runs(void) {
    harbour_wishes();
    accepted("P11 lattice", LATTICE, 0, 0, "");
    accepted("P11 window", WINDOW, 0, 1, "");
    accepted("P11, marks kept", LATTICE, 64, 0, "");
    check(shortlist_lattice(NULL, 0, NULL, 0, 1) == -SHORTLIST_NO_WISH, "NULL lattice");
    check(shortlist_window(NULL, 0, NULL, 0, 1) == -SHORTLIST_NO_WISH, "NULL window");
    check(shortlist_lattice(built.at, built.length, NULL, 0, 0) == 0, "NULL marks lattice");
    check(shortlist_window(built.at, built.length, NULL, 0, 1) == 0, "NULL marks window");
}

/* The longest stream: seven BETWEEN, LAYERED with 64 names, 1,024 runs that are all alike. */
static void test_longest(void) {
    static char ones[SHORTLIST_MAX_RUNS + 1];
    memset(ones, '1', SHORTLIST_MAX_RUNS);
    built.length = 0;
    for (unsigned column = 0; column < 7; column++) {
        wish(4, column, 0, 9, 9);
        number(3);
        number(4);
    }
    layered(7, 15, 15);
    for (int value = 0; value < SHORTLIST_MAX_NAMED; value++)
        named(value, (unsigned)value % 16);
    for (int i = 0; i < SHORTLIST_MAX_RUNS; i++)
        run(0, 0, 0);
    check(built.length == SHORTLIST_MAX_STREAM_BYTES, "longest stream");
    accepted("longest stream, lattice", LATTICE, SHORTLIST_MAX_RUNS, SHORTLIST_ENOUGH_BUDGET, ones);
    accepted("longest stream, window", WINDOW, SHORTLIST_MAX_RUNS + 1, 1024, ones);
    accepted("longest stream, w 1", WINDOW, SHORTLIST_MAX_RUNS, 1, ones);
    byte(0);
    unreadable("one byte more", SHORTLIST_UNKNOWN_KIND);
}

static void test_errno(void) {
    harbour();
    errno = 12345;
    accepted("errno kept", WINDOW, 5, 64, "11101");
    check(errno == 12345, "errno kept");
}

int main(void) {
    test_harbour();
    test_value_outside();
    test_reading();
    test_harbour_with_08();
    test_reading_of_08();
    test_parts();
    test_prefixes();
    test_nodes();
    test_marked_cases();
    test_no_runs();
    test_longest();
    test_errno();
    printf("C: %d passed, %d failed\n", passed, failed);
    return failed != 0;
}
