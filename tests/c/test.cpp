// The flat calls from C++: the header's guards and linkage, a vector of bytes as buffer, threads at once.
#include "shortlist.h"
#include "shortlist.h"

#include <array>
#include <cstdio>
#include <thread>
#include <type_traits>
#include <vector>

using Bytes = std::vector<std::uint8_t>;
using Call = std::int32_t (*)(const std::uint8_t *, std::size_t, std::uint8_t *, std::size_t, std::uint32_t);
static_assert(std::is_same_v<decltype(&shortlist_lattice), Call>);
static_assert(std::is_same_v<decltype(&shortlist_window), Call>);

namespace {

int passed = 0;
int failed = 0;

void check(bool ok, const char *what) {
    (ok ? passed : failed)++;
    if (!ok)
        std::printf("failed: %s\n", what);
}

void number(Bytes &stream, std::int64_t value) {
    for (int shift = 0; shift < 32; shift += 8)
        stream.push_back(static_cast<std::uint8_t>(static_cast<std::uint64_t>(value) >> shift));
}

constexpr std::uint8_t AROUND = 3;
constexpr std::uint8_t SIDED = 8;

// The Harbour log with its density wish as AROUND, or as kind 08, which has two figures where AROUND has z.
Bytes harbour(std::uint8_t kind) {
    Bytes stream{2, 1};
    for (auto figure : {0, 1000, 100})
        number(stream, figure);
    stream.insert(stream.end(), {kind, 2});
    for (auto figure : {1000, 1600, 50, 1250})
        number(stream, figure);
    if (kind == SIDED)
        number(stream, 1250);
    const std::array<std::array<int, 3>, 5> runs{{{800, 900, 1300}, {650, 1000, 1400}, {700, 850, 1250}, {720, 880, 1210}, {810, 900, 1270}}};
    for (const auto &run : runs) {
        stream.push_back(7);
        for (auto value : run)
            number(stream, value);
        stream.insert(stream.end(), 20, 0);
    }
    return stream;
}

std::int32_t call(Call engine, const Bytes &stream, Bytes &marks, std::uint32_t n) {
    return engine(stream.data(), stream.size(), marks.data(), marks.size(), n);
}

// A thousand calls that have to end alike, whatever the other threads do.
bool many_calls(const Bytes &stream) {
    bool same = true;
    for (std::uint32_t w = 1; w <= 500; w++) {
        Bytes marks(7, 9);
        same = same && call(shortlist_window, stream, marks, w) == 4 && marks == Bytes{1, 1, 1, 0, 1, 9, 9};
        same = same && call(shortlist_lattice, stream, marks, 148 + w) == 4 && marks == Bytes{1, 1, 1, 0, 1, 9, 9};
    }
    return same;
}

void test_threads(const Bytes &stream) {
    std::array<bool, 4> same{};
    std::vector<std::thread> threads;
    for (auto &result : same)
        threads.emplace_back([&stream, &result] { result = many_calls(stream); });
    for (auto &thread : threads)
        thread.join();
    for (auto result : same)
        check(result, "threads at once");
}

void test_empty() {
    Bytes none;
    check(call(shortlist_lattice, none, none, 1) == -SHORTLIST_NO_WISH, "empty vectors, lattice");
    check(call(shortlist_window, none, none, 1) == -SHORTLIST_NO_WISH, "empty vectors, window");
    check(shortlist_window(nullptr, 0, nullptr, 0, 1) == -SHORTLIST_NO_WISH, "nullptr");
}

void test_refusals(const Bytes &stream) {
    Bytes marks(4, 9);
    check(call(shortlist_lattice, stream, marks, 149) == -SHORTLIST_BAD_BUFFER, "5 rows, 4 mark bytes, lattice");
    check(call(shortlist_window, stream, marks, 4) == -SHORTLIST_BAD_BUFFER, "5 rows, 4 mark bytes, window");
    marks.assign(5, 9);
    check(call(shortlist_lattice, stream, marks, 148) == -SHORTLIST_BUDGET_SPENT, "budget 148");
    check(call(shortlist_window, stream, marks, 1025) == -SHORTLIST_BAD_BUFFER, "w 1,025");
    check(call(shortlist_lattice, Bytes{9}, marks, 149) == -SHORTLIST_UNKNOWN_KIND, "unknown kind, lattice");
    check(call(shortlist_window, Bytes{9}, marks, 4) == -SHORTLIST_UNKNOWN_KIND, "unknown kind, window");
    check(marks == Bytes(5, 9), "refused: marks unchanged");
}

void test_marks(const Bytes &stream) {
    Bytes marks(6, 9);
    check(call(shortlist_lattice, stream, marks, SHORTLIST_ENOUGH_BUDGET) == 4, "lattice");
    check(marks == Bytes{1, 1, 1, 0, 1, 9}, "lattice marks");
    marks.assign(6, 9);
    check(call(shortlist_window, stream, marks, 64) == 4, "window");
    check(marks == Bytes{1, 1, 1, 0, 1, 9}, "window marks");
}

} // namespace

int main() {
    const Bytes stream = harbour(AROUND);
    const Bytes sided = harbour(SIDED);
    check(stream.size() == 197, "Harbour log has 197 bytes");
    check(sided.size() == 201, "Harbour log with kind 08 has 201 bytes");
    test_marks(stream);
    test_marks(sided);
    test_refusals(stream);
    test_empty();
    test_threads(stream);
    std::printf("C++: %d passed, %d failed\n", passed, failed);
    return failed != 0;
}
