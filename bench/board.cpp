#include "board.hpp"

namespace plain {
namespace {

constexpr uint32_t NO_REMOVAL = 31, NO_POINT = 1u << POINTS_MAX;

// Three stones to 21 points; nine stones have four neighbours each at the most.
constexpr int SLIDES_MAX = 63;

} // namespace

Board::Board(int rings) : points_(8 * rings), cross_places_(rings == 3 ? ODD_PLACES : 0) {
    for (int p = 0; p < points_; p++) {
        uint32_t point = 1u << p, before = turned(point, 7), after = turned(point, 1);
        neighbours_[p] = neighbours_of(point);
        if (EVEN_PLACES & point) {
            partners_[p][0] = before | turned(point, 6);
            partners_[p][1] = after | turned(point, 2);
        } else {
            partners_[p][0] = before | after;
            partners_[p][1] = rings == 3 ? (0x010101u << p % 8) & ~point : NO_POINT;
        }
    }
}

int Board::moves(Position at, uint16_t *list) const {
    uint16_t others[SLIDES_MAX];
    int captures = 0, rest = 0, stones = std::popcount(at.mover);
    uint32_t free = vacant(at), taken = removable(at.opponent);
    for (uint32_t from_set = at.mover; from_set;) {
        int from = pop(from_set);
        for (uint32_t to_set = stones == STONES_MIN ? free : free & neighbours_[from]; to_set;) {
            int to = pop(to_set);
            uint32_t slide = 1024 * from + 32 * to;
            if (closes(at.mover & ~(1u << from), to))
                for (uint32_t left = taken; left;) list[captures++] = slide + pop(left);
            else
                others[rest++] = slide + NO_REMOVAL;
        }
    }
    std::copy_n(others, rest, list + captures);
    return captures + rest;
}

Position Board::unrank(int mover, int opponent, uint64_t rank) const {
    Position at{0, 0};
    int index = mover * counting::COLUMN + opponent;
    for (int p = points_ - 1; p >= 0; p--) {
        uint64_t least_1 = counting::row(0, p)[index], least_2 = counting::row(1, p)[index];
        uint32_t is_2 = rank >= least_2, is_1 = (rank >= least_1) & ~is_2;
        rank -= is_2 ? least_2 : is_1 ? least_1 : 0;
        at.mover |= is_1 << p;
        at.opponent |= is_2 << p;
        index -= is_2 ? 1 : is_1 ? counting::COLUMN : 0;
    }
    return at;
}

bool Board::has_table(int mover, int opponent, int k) const {
    return std::min(mover, opponent) >= STONES_MIN && std::max(mover, opponent) <= k && mover + opponent <= points_;
}

size_t Board::start(int mover, int opponent, int k) const {
    size_t sum = 0;
    for (int m = STONES_MIN; m <= std::min(mover, k); m++)
        for (int o = STONES_MIN; o <= k && (m < mover || o < opponent); o++)
            if (has_table(m, o, k)) sum += size(m, o);
    return sum;
}

} // namespace plain
