// The table of calls: boards, ranks, moves, entries and best moves of the same positions, by the library and by the plain
// solver's board.
#include "board.hpp"
#include "measure.hpp"
#include "morris.h"
#include "solver.hpp"
#include "tablebase.hpp"

#include <algorithm>
#include <array>
#include <cstdio>
#include <cstring>
#include <vector>

namespace bench {
namespace {

// Nanoseconds a call, the least of five passes over all positions.
template <class Call> double nanoseconds(size_t calls, const Call &call) {
    double least = 1e300;
    for (int pass = 0; pass < 5; pass++) {
        double start = processor();
        for (size_t i = 0; i < calls; i++) call(i);
        least = std::min(least, processor() - start);
    }
    return least / calls * 1e9;
}

plain::Position position_of(const uint8_t *board, int points) {
    plain::Position at{0, 0};
    for (int p = 0; p < points; p++) {
        at.mover |= uint32_t{board[p] == 1} << p;
        at.opponent |= uint32_t{board[p] == 2} << p;
    }
    return at;
}

void write_board(plain::Position at, uint8_t *board, int points) {
    for (int p = 0; p < points; p++) board[p] = (at.mover >> p & 1) + 2 * (at.opponent >> p & 1);
}

// Both sides of a comparison: what each found for the same ranks. Both take and give bytes.
class Calls {
  public:
    Calls(int rings, int mover, int opponent)
        : rings_(rings), mover_(mover), opponent_(opponent), board_(rings), points_(board_.points()) {
        uint64_t size = board_.size(mover, opponent), state = 1;
        for (uint64_t &rank : asked_) {
            state = state * 6364136223846793005 + 1442695040888963407;
            rank = (state >> 16) % size;
        }
    }

    // A row for each call, those on a tablebase where it is not too large; returns how many results differ.
    size_t compare() {
        size_t differ = compare_unrank();
        differ += compare_rank();
        differ += compare_moves();
        int k = std::max(mover_, opponent_);
        if (board_.length(k) <= ENTRIES_MAX) differ += compare_entries(k);
        return differ;
    }

  private:
    static constexpr size_t CALLS = 100000, ENTRIES_MAX = 10000000;
    using Boards = std::vector<uint8_t>;
    using Ranks = std::vector<uint64_t>;

    void row(const char *call, double library, double plain, size_t differ) const {
        std::printf("| %s | %d | %d, %d | %.1f | %.1f | %.1f | %zu |\n", call, rings_, mover_, opponent_, library, plain,
                    library / plain, differ);
    }

    size_t compare_unrank() {
        Boards other(CALLS * points_);
        double library = nanoseconds(
            CALLS, [&](size_t i) { morris_unrank(rings_, mover_, opponent_, asked_[i], &other[i * points_], points_); });
        double plain = nanoseconds(
            CALLS, [&](size_t i) { write_board(board_.unrank(mover_, opponent_, asked_[i]), &boards_[i * points_], points_); });
        size_t differ = 0;
        for (size_t i = 0; i < CALLS; i++) differ += std::memcmp(&boards_[i * points_], &other[i * points_], points_) != 0;
        row("unrank", library, plain, differ);
        return differ;
    }

    size_t compare_rank() {
        Ranks ranks(CALLS), other(CALLS);
        double library = nanoseconds(CALLS, [&](size_t i) { morris_rank(rings_, &boards_[i * points_], points_, &other[i]); });
        double plain = nanoseconds(CALLS, [&](size_t i) { ranks[i] = board_.rank(position_of(&boards_[i * points_], points_)); });
        size_t differ = 0;
        for (size_t i = 0; i < CALLS; i++) differ += ranks[i] != other[i] || ranks[i] != asked_[i];
        row("rank", library, plain, differ);
        return differ;
    }

    size_t compare_moves() {
        uint16_t list[MORRIS_MOVES_MAX] = {}, other[MORRIS_MOVES_MAX] = {};
        size_t length = 0, other_length = 0, differ = 0;
        auto library = [&](size_t i) {
            morris_moves(rings_, EDITION, &boards_[i * points_], points_, other, MORRIS_MOVES_MAX, &other_length);
        };
        auto plain = [&](size_t i) { length = board_.moves(position_of(&boards_[i * points_], points_), list); };
        double library_time = nanoseconds(CALLS, library), plain_time = nanoseconds(CALLS, plain);
        for (size_t i = 0; i < CALLS; i++) {
            library(i), plain(i);
            differ += !std::equal(list, list + length, other, other + other_length);
        }
        row("moves", library_time, plain_time, differ);
        return differ;
    }

    // Two rows, over a tablebase that the plain solver fills.
    size_t compare_entries(int k) {
        std::vector<uint16_t> entries(board_.length(k));
        plain::fill(rings_, k, entries.data());
        plain::Tablebase tablebase(board_, k, entries.data());
        auto lookup = [&](size_t i) {
            uint16_t entry;
            morris_lookup(rings_, EDITION, &boards_[i * points_], points_, k, entries.data(), entries.size(), &entry);
            return entry;
        };
        auto best_move = [&](size_t i) {
            plain::BestMove best;
            morris_best_move(rings_, EDITION, &boards_[i * points_], points_, k, entries.data(), entries.size(),
                             &best.number, &best.entry);
            return best;
        };
        auto at = [&](size_t i) { return position_of(&boards_[i * points_], points_); };
        size_t differ = compare_read<uint16_t>("lookup", lookup, [&](size_t i) { return tablebase.entry(at(i)); });
        differ += compare_read<plain::BestMove>("best move", best_move, [&](size_t i) { return tablebase.best_move(at(i)); });
        return differ;
    }

    // A row for what each side reads of the same positions.
    template <class Read, class Library, class Plain>
    size_t compare_read(const char *call, const Library &library, const Plain &plain) const {
        std::vector<Read> found(CALLS), other(CALLS);
        double library_time = nanoseconds(CALLS, [&](size_t i) { other[i] = library(i); });
        double plain_time = nanoseconds(CALLS, [&](size_t i) { found[i] = plain(i); });
        size_t differ = 0;
        for (size_t i = 0; i < CALLS; i++) differ += found[i] != other[i];
        row(call, library_time, plain_time, differ);
        return differ;
    }

    int rings_, mover_, opponent_;
    plain::Board board_;
    int points_;
    Ranks asked_ = Ranks(CALLS);
    Boards boards_ = Boards(CALLS * points_);
};

} // namespace

size_t compare_calls() {
    std::printf("\n| call | rings | stones | library, ns | plain, ns | library / plain | results that differ |\n|%s\n",
                "---|---:|---:|---:|---:|---:|---:|");
    size_t differ = 0;
    for (auto [rings, m, o] : {std::array{1, 3, 3}, {2, 5, 5}, {3, 3, 3}, {3, 9, 9}}) differ += Calls(rings, m, o).compare();
    return differ;
}

} // namespace bench
