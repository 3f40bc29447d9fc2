// Ranks of the boards that one board turns into: one sweep over its stones, then a few look-ups for each of them.
#pragma once

#include "board.hpp"
#include "images.hpp"

namespace plain {

// The boards that a stone of one side (0 the mover, 1 the opponent) makes by going to a vacant point.
template <int SIDE> class MovedRanks {
  public:
    explicit MovedRanks(Position at) : occupied_(at.mover | at.opponent) {
        Sums sums{0, 0, 0};
        up_to_[0] = sums;
        for (uint32_t rest = occupied_; rest;) {
            int p = pop(rest), side = at.opponent >> p & 1;
            sums.index += side ? 1 : counting::COLUMN;
            const uint64_t *counted = counting::row(side, p) + sums.index;
            rank_ += counted[0];
            sums.more += counted[UNIT] - counted[0];
            sums.less += counted[-UNIT] - counted[0];
            up_to_[p + 1] = sums;
        }
    }

    uint64_t rank(int from, int to) const {
        return to < from ? leaving_down(from) + arriving_down(to) : leaving_up(from) + arriving_up(to);
    }

    // A rank has a term of the point that the stone leaves and a term of the point where it arrives. Going down, it puts one
    // stone more below the stones between the two; going up, one less.
    uint64_t leaving_down(int from) const { return without(from) + up_to_[stone_below(from)].more; }
    uint64_t leaving_up(int from) const { return without(from) - up_to_[from + 1].less; }

    uint64_t arriving_down(int to) const {
        const Sums &sums = up_to_[stone_below(to)];
        return counting::row(SIDE, to)[sums.index + UNIT] - sums.more;
    }
    uint64_t arriving_up(int to) const {
        const Sums &sums = up_to_[stone_below(to)];
        return counting::row(SIDE, to)[sums.index] + sums.less;
    }

  private:
    static constexpr int UNIT = SIDE ? 1 : counting::COLUMN; // what a stone of the side adds to an index

    // Of the stones up to a point: what they count more, modulo 2^64, with one stone more, or less, of the side below them
    // all; and their index.
    struct Sums {
        uint64_t more, less;
        int64_t index;
    };

    uint64_t without(int from) const { return rank_ - counting::row(SIDE, from)[up_to_[from + 1].index]; }

    // 1 + the highest stone below a point, or 0.
    int stone_below(int point) const { return std::bit_width(occupied_ & below(point)); }

    uint32_t occupied_;
    uint64_t rank_ = 0;
    Sums up_to_[POINTS_MAX + 1]; // by 1 + point, only where there is a stone
};

// The same where the mover's stones go to every vacant point: the terms of arriving are found once.
class FlownRanks {
  public:
    FlownRanks(const MovedRanks<0> &ranks, uint32_t vacant) : ranks_(ranks), vacant_(vacant) {
        while (vacant) {
            int to = pop(vacant);
            down_[to] = ranks.arriving_down(to);
            up_[to] = ranks.arriving_up(to);
        }
    }

    // Calls `use` with the rank for each vacant point.
    template <class Use> void for_all(int from, const Use &use) const {
        uint64_t leaving = ranks_.leaving_down(from);
        for (uint32_t rest = vacant_ & below(from); rest;) use(leaving + down_[pop(rest)]);
        leaving = ranks_.leaving_up(from);
        for (uint32_t rest = vacant_ & ~below(from); rest;) use(leaving + up_[pop(rest)]);
    }

  private:
    const MovedRanks<0> &ranks_;
    uint32_t vacant_;
    uint64_t down_[POINTS_MAX], up_[POINTS_MAX];
};

// The boards that one stone more of the opponent makes.
class InsertedRanks {
  public:
    explicit InsertedRanks(Position at) : occupied_(at.mover | at.opponent) {
        Sums sums{0, 0};
        up_to_[0] = sums;
        for (uint32_t rest = occupied_; rest;) {
            int p = pop(rest), side = at.opponent >> p & 1;
            sums.index += side ? 1 : counting::COLUMN;
            const uint64_t *counted = counting::row(side, p) + sums.index;
            rank_ += counted[1];
            sums.less += counted[0] - counted[1];
            up_to_[p + 1] = sums;
        }
    }

    uint64_t rank(int point) const {
        const Sums &sums = up_to_[std::bit_width(occupied_ & below(point))];
        return rank_ + sums.less + counting::row(1, point)[sums.index + 1];
    }

  private:
    // Of the stones up to a point: what they count more, modulo 2^64, without the new stone below them; and their index.
    struct Sums {
        uint64_t less;
        int64_t index;
    };

    uint32_t occupied_;
    uint64_t rank_ = 0; // with the new stone below all others, but for what it counts itself
    Sums up_to_[POINTS_MAX + 1];
};

// The ranks of the boards of eight points, by their two halves. A half is the word of its four values in base three.
struct LowRanks {
    static constexpr int WORDS = 81, COUNTS = 15, POWER[4] = {1, 3, 9, 27};

    uint16_t words[256];                // by set: the words of its halves, the low one in the low byte
    uint8_t rank[WORDS];                // of a low half
    uint8_t counts[WORDS];              // of a low half: the place of its counts among all that there are
    uint16_t high_terms[WORDS][COUNTS]; // what the stones of a high half count, by the counts of the low one

    constexpr LowRanks() : words(), rank(), counts(), high_terms() {
        for (int set = 0; set < 256; set++)
            for (int p = 0; p < 8; p++)
                if (set >> p & 1) words[set] += POWER[p % 4] << (p < 4 ? 0 : 8);
        for (int set = 0; set < 256; set++) add_half(set & 15, set >> 4);
    }

    // The rank of a ring on the lowest eight points.
    uint64_t of(Ring ring) const {
        size_t word = words[ring.mover] + 2 * words[ring.opponent], low = word & 255, high = word >> 8;
        return rank[low] + high_terms[high][counts[low]];
    }

  private:
    constexpr void add_half(uint32_t mover, uint32_t opponent) {
        if (mover & opponent) return;
        int word = words[mover] + 2 * words[opponent], m = std::popcount(mover), o = std::popcount(opponent);
        rank[word] = counting::terms({mover, opponent}, 0, 0);
        counts[word] = place(m, o);
        for (m = 0; m <= 4; m++)
            for (o = 0; m + o <= 4; o++)
                high_terms[word][place(m, o)] = counting::terms({mover, opponent}, 4, m * counting::COLUMN + o);
    }

    // Of counts with the sum s, after the s (s + 1) / 2 of lower sums.
    static constexpr int place(int m, int o) { return (m + o) * (m + o + 1) / 2 + m; }
};

inline constexpr LowRanks LOW_RANKS;

// The images of a board by the maps of a ring, with the rings in order or reversed.
class ImageRanks {
  public:
    ImageRanks(const Images &images, Position at)
        : top_start_(images.top_start()), top_(images.top(at)), middle_(images.middle(at)), bottom_(images.bottom(at)),
          in_top_(top_.index()), in_middle_(middle_.index()), in_bottom_(bottom_.index()) {}

    uint64_t in_order(int map) const { return rank(bottom_.image(map), in_bottom_, middle_.image(map), top_.image(map)); }
    uint64_t reversed(int map) const { return rank(top_.image(map), in_top_, middle_.image(map), bottom_.image(map)); }

    // Calls `use` with all ranks; with some of them more than once, where there are fewer images than maps.
    template <class Use> void for_all(const Use &use) const {
        for (int map = 0; map < RingImages::MAPS; map++) {
            Ring top = top_.image(map), middle = middle_.image(map), bottom = bottom_.image(map);
            use(rank(bottom, in_bottom_, middle, top));
            use(rank(top, in_top_, middle, bottom));
        }
    }

  private:
    uint64_t rank(Ring low, size_t in_low, Ring middle, Ring high) const {
        if (top_start_ == 0) return LOW_RANKS.of(low); // the only ring
        return LOW_RANKS.of(low) + terms(middle, 8, in_low) + terms(high, top_start_, in_low + in_middle_);
    }

    static uint64_t terms(Ring ring, size_t start, size_t index) {
        return counting::terms({ring.mover, ring.opponent}, start, index);
    }

    size_t top_start_;
    Ring top_, middle_, bottom_;
    size_t in_top_, in_middle_, in_bottom_; // the index of the ring's counts
};

} // namespace plain
