// The table of fills: both solvers fill the same tablebase; then every entry is compared.
#include "board.hpp"
#include "measure.hpp"
#include "runs.hpp"

#include <algorithm>
#include <cstdio>
#include <utility>

namespace bench {
namespace {

// A run, and the tablebase that it filled.
struct Filled {
    Filled(Solver solver, int rings, int k, size_t length)
        : entries(length * sizeof(uint16_t), Memory::Kind::SHARED),
          run(solver, rings, k, [this](const uint16_t *filled, size_t length) {
              std::copy_n(filled, length, entries.as<uint16_t>());
          }) {}

    uint16_t entry(size_t place) const { return entries.as<uint16_t>()[place]; }

    Memory entries;
    Run run;
};

// One row; returns how many entries differ.
size_t compare_fill(int rings, int k) {
    size_t length = plain::Board(rings).length(k), differ = 0;
    Filled plain(Solver::PLAIN, rings, k, length), library(Solver::LIBRARY, rings, k, length);
    for (size_t i = 0; i < length; i++) differ += plain.entry(i) != library.entry(i);
    print_row_start(rings, k, library.run, plain.run);
    std::printf(" %zu |\n", differ);
    return differ;
}

} // namespace

size_t compare_fills(bool small) {
    print_head(" entries that differ |", 1);
    size_t differ = compare_fill(1, 9) + compare_fill(2, 3);
    if (!small)
        for (auto [rings, k] : {std::pair{2, 4}, {2, 5}, {2, 6}, {2, 9}, {3, 3}, {3, 4}, {3, 5}})
            differ += compare_fill(rings, k);
    return differ;
}

} // namespace bench
