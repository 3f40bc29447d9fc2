// The entries of a position's successors, one after the other.
#pragma once

#include "board.hpp"
#include "ranks.hpp"

namespace plain {

// Of the positions of one table. Their successors stand in two tables: without removal, and with it.
class Successors {
  public:
    // A null `lower`: two stones are left after a removal, and no table is stored.
    Successors(const Board &board, int mover, const uint16_t *moved, const uint16_t *lower)
        : board_(board), flies_(mover == STONES_MIN), moved_(moved), lower_(lower) {}

    // Calls `settles` with the entries of the successors until it is true; returns whether it was.
    template <class Settles> bool any(Position at, const Settles &settles) const {
        MovedRanks<1> ranks({at.opponent, at.mover});
        uint32_t free = board_.vacant(at);
        for (uint32_t from_set = at.mover; from_set;) {
            int from = pop(from_set);
            uint32_t others = at.mover & ~(1u << from);
            for (uint32_t to_set = flies_ ? free : free & board_.neighbours(from); to_set;) {
                int to = pop(to_set);
                if (board_.closes(others, to) ? any_removal(at.opponent, others | 1u << to, settles)
                                              : settles(moved_[ranks.rank(from, to)]))
                    return true;
            }
        }
        return false;
    }

  private:
    // A side with two stones has lost, at depth 0.
    template <class Settles> bool any_removal(uint32_t theirs, uint32_t moved, const Settles &settles) const {
        if (!lower_) return settles(0);
        for (uint32_t rest = board_.removable(theirs); rest;)
            if (settles(lower_[board_.rank({theirs & ~(1u << pop(rest)), moved})])) return true;
        return false;
    }

    const Board &board_;
    bool flies_;
    const uint16_t *moved_, *lower_;
};

} // namespace plain
