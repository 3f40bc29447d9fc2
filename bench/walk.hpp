// Positions of a table by rising rank.
#pragma once

#include "board.hpp"

namespace plain {

// All boards of the lowest eight points, which are a ring: by the index of their counts, then by rank.
struct LowBoards {
    static constexpr int POINTS = 8, BOARDS = 6561;

    uint16_t start[counting::ROW];
    struct {
        uint8_t mover, opponent;
    } board[BOARDS];

    constexpr LowBoards() : start(), board() {
        size_t place = 0;
        for (int m = 0; m <= POINTS; m++)
            for (int o = 0; m + o <= POINTS; o++) {
                start[m * counting::COLUMN + o] = place;
                Position at = first(m, o);
                for (size_t end = place + counting::boards(POINTS, m, o);; at = next(at)) {
                    board[place].mover = at.mover;
                    board[place++].opponent = at.opponent;
                    if (place == end) break;
                }
            }
    }
};

inline constexpr LowBoards LOW_BOARDS;

// Holds the values of the points above those while they stay the same, so that most steps are one look-up.
class Walk {
  public:
    Walk(const Board &board, int mover, int opponent) {
        int top = board.points();
        for (int p = 0; p < top; p++) block_[p].end = 0;
        block_[top] = {0, board.size(mover, opponent), mover * counting::COLUMN + opponent};
        if (top == LowBoards::POINTS) find_low_boards();
    }

    // The position of a rank, which must not be less than the last one.
    Position to(uint64_t rank) {
        if (rank >= block_[LowBoards::POINTS].end) seek(rank);
        auto [mover, opponent] = LOW_BOARDS.board[rank + low_offset_];
        return {high_.mover | mover, high_.opponent | opponent};
    }

  private:
    // Boards with the same values from a point up: their ranks, and the index of the stones below that point.
    struct Block {
        uint64_t start, end;
        int64_t index;
    };

    // Goes up to the least block that has the rank, and down from there. A block that was left ends before the rank, so that
    // those above it still stand.
    void seek(uint64_t rank) {
        int p = LowBoards::POINTS + 1;
        while (block_[p].end <= rank) p++;
        auto [start, end, index] = block_[p];
        uint32_t mover = high_.mover & ~below(p), opponent = high_.opponent & ~below(p);
        while (p-- > LowBoards::POINTS) {
            uint64_t least_1 = start + counting::row(0, p)[index], least_2 = start + counting::row(1, p)[index];
            uint32_t is_2 = rank >= least_2, is_1 = (rank >= least_1) & ~is_2;
            end = is_2 ? end : is_1 ? least_2 : least_1;
            start = is_2 ? least_2 : is_1 ? least_1 : start;
            index -= is_2 ? 1 : is_1 ? counting::COLUMN : 0;
            mover |= is_1 << p;
            opponent |= is_2 << p;
            block_[p] = {start, end, index};
        }
        high_ = {mover, opponent};
        find_low_boards();
    }

    void find_low_boards() {
        const Block &block = block_[LowBoards::POINTS];
        low_offset_ = LOW_BOARDS.start[block.index] - block.start;
    }

    Position high_{0, 0};
    uint64_t low_offset_ = 0;     // from a rank to its low board, modulo 2^64
    Block block_[POINTS_MAX + 1]; // by the point
};

} // namespace plain
