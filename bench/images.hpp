// The images of a board: turns and mirrors of the places, each with and without the rings reversed. They have one true entry.
#pragma once

#include "board.hpp"

#include <emmintrin.h>

namespace plain {

// The images of every set of places: place p goes to p + 2k by map k, and to 2k - p by map 4 + k, modulo 8.
struct RingImages {
    static constexpr int MAPS = 8;

    uint8_t of[256][MAPS];

    constexpr RingImages() : of() {
        for (int set = 0; set < 256; set++)
            for (int map = 0; map < MAPS; map++)
                for (int p = 0; p < 8; p++) of[set][map] |= (set >> p & 1) << ((map < 4 ? p + 2 * map : 2 * map - p) & 7);
    }
};

inline constexpr RingImages RING_IMAGES;

// The two sets of one ring.
struct Ring {
    uint8_t mover, opponent;

    Ring image(int map) const { return {RING_IMAGES.of[mover][map], RING_IMAGES.of[opponent][map]}; }

    // The index of its counts; both are counted at once.
    size_t index() const {
        uint32_t sums = mover | opponent << 8;
        sums = (sums & 0x5555) + (sums >> 1 & 0x5555);
        sums = (sums & 0x3333) + (sums >> 2 & 0x3333);
        sums = (sums & 0x0f0f) + (sums >> 4 & 0x0f0f);
        return (sums & 255) * counting::COLUMN + (sums >> 8);
    }
};

// Of one ring, the top is the bottom; where there is no middle it is empty.
class Images {
  public:
    explicit Images(const Board &board) : top_(board.points() - 8), middle_(board.points() == POINTS_MAX ? 8 : 31) {}

    int top_start() const { return top_; } // its first point

    Ring top(Position at) const { return ring(at, top_); }
    Ring middle(Position at) const { return ring(at, middle_); }
    Ring bottom(Position at) const { return ring(at, 0); }

    // Whether no image has a lower number: its mover's set. All sixteen are compared at once, those with the rings in order
    // first. Most are settled by the top ring.
    bool least(Position at) const {
        uint8_t top = at.mover >> top_, middle = at.mover >> middle_, bottom = at.mover;
        Order first(top, bottom, top);
        if (first.less) return false;
        Order second(middle, middle, middle), third(bottom, top, bottom);
        return !(first.same & (second.less | (second.same & third.less)));
    }

  private:
    // How the images of two sets of places, eight each, stand to a set: by map, as bits.
    struct Order {
        uint32_t less, same;

        Order(uint8_t some, uint8_t others, uint8_t set) {
            __m128i images = _mm_unpacklo_epi64(load(some), load(others)), own = _mm_set1_epi8(set);
            same = _mm_movemask_epi8(_mm_cmpeq_epi8(images, own));
            less = _mm_movemask_epi8(_mm_cmpeq_epi8(images, _mm_min_epu8(images, own))) & ~same;
        }

        static __m128i load(uint8_t set) { return _mm_loadl_epi64(reinterpret_cast<const __m128i *>(RING_IMAGES.of[set])); }
    };

    static Ring ring(Position at, int start) { return {uint8_t(at.mover >> start), uint8_t(at.opponent >> start)}; }

    int top_, middle_; // the first point of the ring
};

} // namespace plain
