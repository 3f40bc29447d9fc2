// Scans over entries, 32 at a time, in the instructions that every x86-64 has.
#pragma once

#include "board.hpp"

#include <emmintrin.h>

namespace plain {

constexpr size_t SCANNED = 32; // entries at once
constexpr size_t AHEAD = 2048; // how many entries ahead memory is asked for, which is further than processors do by themselves

inline __m128i load_8(const uint16_t *entries) { return _mm_loadu_si128(reinterpret_cast<const __m128i *>(entries)); }

// Which of the next 32 entries are equal to the given one, as bits.
inline uint32_t equal_32(const uint16_t *entries, uint16_t entry) {
    __m128i wanted = _mm_set1_epi16(entry);
    auto equal_16 = [&](const uint16_t *from) -> uint32_t {
        __m128i low = _mm_cmpeq_epi16(load_8(from), wanted), high = _mm_cmpeq_epi16(load_8(from + 8), wanted);
        return _mm_movemask_epi8(_mm_packs_epi16(low, high));
    };
    return equal_16(entries) | equal_16(entries + 16) << 16;
}

// Calls `use` with the index of every entry that is equal to the given one, or of every other one. `use` may write entries,
// but not make a later one such.
template <bool EQUAL = true, class Use> void for_equal(const uint16_t *entries, size_t length, uint16_t entry, const Use &use) {
    size_t i = 0;
    for (; i + SCANNED <= length; i += SCANNED) {
        __builtin_prefetch(entries + std::min(i + AHEAD, length));
        for (uint32_t found = equal_32(entries + i, entry) ^ (EQUAL ? 0 : ~0u); found;) use(i + pop(found));
    }
    for (; i < length; i++)
        if ((entries[i] == entry) == EQUAL) use(i);
}

// The least entry that is not below `bound`, or 65535; the search ends where `bound` itself is found.
inline uint16_t least_from(const uint16_t *entries, size_t length, uint16_t bound) {
    // Less `bound`, the entries below it wrap around to above all the others; less 32768 more, the order is that of signed
    // numbers, of which there is a wide minimum.
    const uint16_t shift = bound + 32768;
    const __m128i wide_shift = _mm_set1_epi16(shift), wide_bound = _mm_set1_epi16(INT16_MIN);
    __m128i wide_least = _mm_set1_epi16(65535 - shift);
    size_t i = 0;
    for (; i + SCANNED <= length; i += SCANNED) {
        for (int j = 0; j < 4; j++)
            wide_least = _mm_min_epi16(wide_least, _mm_sub_epi16(load_8(entries + i + 8 * j), wide_shift));
        if (_mm_movemask_epi8(_mm_cmpeq_epi16(wide_least, wide_bound))) return bound;
    }
    int16_t each[8], least = 65535 - shift;
    _mm_storeu_si128(reinterpret_cast<__m128i *>(each), wide_least);
    for (int16_t one : each) least = std::min(least, one);
    for (; i < length; i++) least = std::min<int16_t>(least, entries[i] - shift);
    return least + shift;
}

} // namespace plain
