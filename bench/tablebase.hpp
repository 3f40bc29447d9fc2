// Entries and best moves read from a filled tablebase, by the plain solver's board.
#pragma once

#include "board.hpp"

namespace plain {

// A move number and the entry of the board that it leads to; zeros for a blocked mover.
struct BestMove {
    uint16_t number, entry;

    bool operator==(const BestMove &) const = default;
};

class Tablebase {
  public:
    Tablebase(const Board &board, int k, const uint16_t *entries);

    uint16_t entry(Position at) const {
        return entries_[starts_[std::popcount(at.mover)][std::popcount(at.opponent)] + board_.rank(at)];
    }

    // The first listed among quickest win, else a draw, else longest loss.
    BestMove best_move(Position at) const;

  private:
    // The entry after a ply: 0 for a mover with two stones.
    uint16_t entry_after(Position at) const { return std::popcount(at.mover) < STONES_MIN ? 0 : entry(at); }

    const Board &board_;
    const uint16_t *entries_;
    size_t starts_[STONES_MAX + 1][STONES_MAX + 1] = {}; // by the counts of stones
};

} // namespace plain
