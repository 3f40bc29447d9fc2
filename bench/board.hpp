// Boards, moves and ranks for the plain solver: what the library is measured against. Written from document 01; it
// shares nothing with the library.
#pragma once

#include <algorithm>
#include <array>
#include <bit>
#include <cstddef>
#include <cstdint>

namespace plain {

constexpr int STONES_MIN = 3, STONES_MAX = 9, POINTS_MAX = 24;

constexpr uint32_t below(int point) { return (1u << point) - 1; }

// The lowest member of a set; 32 where it has none.
constexpr int lowest(uint32_t set) { return std::countr_zero(set); }

// Takes the lowest member out of a set.
constexpr int pop(uint32_t &set) {
    int point = lowest(set);
    set &= set - 1;
    return point;
}

// Two point sets: bit p stands for point p.
struct Position {
    uint32_t mover, opponent;
};

// Ranks are sums over the stones: a stone counts the boards that have less at its point and the same above it.
namespace counting {

// Counts of stones are held as one index, COLUMN for each of the mover's and 1 for each of the opponent's.
constexpr int COLUMN = STONES_MAX + 1, ROW = COLUMN * COLUMN;

// By side (0 mover, 1 opponent), point, and the stones at the point and below it. The places after the last row are read
// where one stone more than nine is asked for, in sums whose last terms are not used.
using Table = std::array<uint64_t, 2 * POINTS_MAX * ROW + COLUMN>;

constexpr uint64_t binomial(int n, int k) {
    if (k < 0 || k > n) return 0;
    uint64_t product = 1;
    for (int i = 1; i <= k; i++) product = product * (n - k + i) / i;
    return product;
}

constexpr uint64_t boards(int points, int mover, int opponent) {
    return binomial(points, mover) * binomial(points - mover, opponent);
}

constexpr Table make_table() {
    Table table{};
    for (int p = 0; p < POINTS_MAX; p++)
        for (int m = 0; m <= STONES_MAX; m++)
            for (int o = 0; o <= STONES_MAX; o++) {
                uint64_t vacant = boards(p, m, o), mover = boards(p, m - 1, o);
                table[p * ROW + m * COLUMN + o] = vacant;
                table[(POINTS_MAX + p) * ROW + m * COLUMN + o] = vacant + mover;
            }
    return table;
}

inline constexpr Table TABLE = make_table();

// What a stone of the mover (0) or of the opponent (1) at a point counts, by the index of the stones up to it.
inline const uint64_t *row(int side, int point) { return &TABLE[(side * POINTS_MAX + point) * ROW]; }

// What all stones of a board count that stands from a point on, by the index of the stones below that point. Without branches,
// as the order of the sides is not foreseen.
constexpr uint64_t terms(Position at, size_t point, size_t index) {
    uint64_t sum = 0;
    for (uint32_t rest = at.mover | at.opponent; rest;) {
        size_t p = pop(rest), side = at.opponent >> p & 1;
        index += COLUMN - (COLUMN - 1) * side;
        sum += TABLE[side * (POINTS_MAX * ROW) + (point + p) * ROW + index];
    }
    return sum;
}

} // namespace counting

// The position of rank 0 of given counts.
constexpr Position first(int mover, int opponent) { return {below(mover) << opponent, below(opponent)}; }

// The position of the next rank; there must be one. The lowest point p whose value is less than the one below it takes the
// least greater value from below; the other values below it, which rise from point 0 up, then fall.
constexpr Position next(Position at) {
    uint32_t occupied = at.mover | at.opponent;
    int p = lowest((~occupied & occupied << 1) | (at.mover & at.opponent << 1));
    int first_2 = std::min(lowest(at.opponent), p), o = p - first_2, m = first_2 - lowest(occupied);
    bool was_1 = at.mover >> p & 1, is_1 = !was_1 && m > 0;
    m += was_1 - is_1;
    o -= !is_1;
    uint32_t above = ~below(p) << 1;
    return {(at.mover & above) | uint32_t{is_1} << p | below(m) << o, (at.opponent & above) | uint32_t{!is_1} << p | below(o)};
}

class Board {
  public:
    explicit Board(int rings);

    int points() const { return points_; }
    uint32_t vacant(Position at) const { return below(points_) & ~(at.mover | at.opponent); }

    uint32_t neighbours(int point) const { return neighbours_[point]; }

    // The neighbours of all members of a set.
    uint32_t neighbours_of(uint32_t set) const {
        uint32_t odd = set & ODD_PLACES;
        return (turned(set, 1) | turned(set, 7) | odd << 8 | odd >> 8) & below(points_);
    }

    // The members of a set that stand in full mills of it.
    uint32_t milled(uint32_t set) const {
        uint32_t ring = set & turned(set, 7) & turned(set, 6) & EVEN_PLACES;
        uint32_t cross = set & set >> 8 & set >> 16 & cross_places_;
        return ring | turned(ring, 1) | turned(ring, 2) | cross | cross << 8 | cross << 16;
    }

    // The stones of a set that a closed mill may take.
    uint32_t removable(uint32_t set) const {
        uint32_t outside = set & ~milled(set);
        return outside ? outside : set;
    }

    // Whether a stone at a point, which may be outside the set, stands in a full mill with members of it.
    bool closes(uint32_t set, int point) const {
        auto [some, others] = partners_[point];
        return (set & some) == some || (set & others) == others;
    }

    // Lists the moves, those with a removal by rising number, then the others by rising number, and returns how many.
    int moves(Position at, uint16_t *list) const;

    uint64_t size(int mover, int opponent) const { return counting::boards(points_, mover, opponent); }
    uint64_t rank(Position at) const { return counting::terms(at, 0, 0); }
    Position unrank(int mover, int opponent, uint64_t rank) const;

    bool has_table(int mover, int opponent, int k) const;
    // Where table (mover, opponent) starts in the tablebase of largest count k.
    size_t start(int mover, int opponent, int k) const;
    size_t length(int k) const { return start(k + 1, 0, k); }

  private:
    static constexpr uint32_t EVEN_PLACES = 0x555555, ODD_PLACES = 0xaaaaaa;

    // Every ring turned clockwise by 1 to 7 places.
    static uint32_t turned(uint32_t set, int places) {
        uint32_t stay = 0x010101u * (0xffu >> places);
        return (set & stay) << places | (set & ~stay) >> (8 - places);
    }

    int points_;
    uint32_t cross_places_; // the points of the mills through all rings
    // By point: its neighbours, and the other points of its two mills; of a mill that there is not, a point that there is not.
    uint32_t neighbours_[POINTS_MAX], partners_[POINTS_MAX][2];
};

} // namespace plain
