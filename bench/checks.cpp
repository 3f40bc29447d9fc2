// The table of checks: both check the same tablebase, filled by the library, and copies of it with one entry changed.
#include "board.hpp"
#include "certificate.hpp"
#include "measure.hpp"
#include "morris.h"

#include <algorithm>
#include <cstdio>
#include <optional>
#include <string>
#include <utility>

namespace bench {
namespace {

using Index = std::optional<uint64_t>; // of the first entry that is not right; none where all are

struct Seconds {
    double wall, processor;
};

template <class Call> Seconds seconds(const Call &call) {
    double wall_start = wall(), processor_start = processor();
    call();
    return {wall() - wall_start, processor() - processor_start};
}

class Checks {
  public:
    Checks(int rings, int k)
        : rings_(rings), k_(k), length_(plain::Board(rings).length(k)), memory_(length_ * sizeof(uint16_t), Memory::Kind::OWN),
          entries_(memory_.as<uint16_t>()) {
        std::fill_n(entries_, length_, uint16_t{7});
    }

    // One row; returns how many results differ from each other or from what is right.
    size_t compare() {
        std::fprintf(stderr, "rings %d, K %d, checks ... ", rings_, k_);
        Index by_library, by_plain;
        Seconds fill = seconds([&] { fill_entries(); });
        Seconds plain = seconds([&] { by_plain = plain_check(); });
        Seconds library = seconds([&] { by_library = library_check(); });
        std::fprintf(stderr, "plain %.3f s, library %.3f s of processor time\n", plain.processor, library.processor);
        size_t differ = by_library.has_value() + by_plain.has_value();
        differ += compare_changed(std::min(CHANGES_MAX, ENTRIES_MAX / length_));
        row(library, plain, fill, differ);
        return differ;
    }

  private:
    static constexpr size_t CHANGES_MAX = 1000, ENTRIES_MAX = 5000000; // of all changed copies together

    void fill_entries() {
        if (int refusal = morris_fill(rings_, EDITION, k_, LIMIT, entries_, length_))
            fail("morris_fill refused " + std::to_string(refusal));
    }

    Index plain_check() const { return plain::first_wrong(rings_, k_, entries_); }

    Index library_check() const {
        uint8_t passed;
        uint64_t index;
        if (int refusal = morris_check(rings_, EDITION, k_, entries_, length_, &passed, &index))
            fail("morris_check refused " + std::to_string(refusal));
        return passed ? Index() : Index(index);
    }

    // One entry at a time is changed, at a pseudo-random place; returns how often the two do not find the same index, or none.
    size_t compare_changed(size_t changes) {
        size_t differ = 0;
        uint64_t state = 1;
        for (size_t change = 0; change < changes; change++) {
            state = state * 6364136223846793005 + 1442695040888963407;
            uint16_t &entry = entries_[(state >> 16) % length_], before = entry;
            entry = changed(entry, change);
            Index library = library_check();
            differ += !library || library != plain_check();
            entry = before;
        }
        return differ;
    }

    // Another entry: void, a draw, or a depth of the other kind or of the same that is close.
    static uint16_t changed(uint16_t entry, size_t change) {
        int others[] = {MORRIS_VOID, MORRIS_DRAW, entry + 1, entry + 2, entry - 1, entry - 2};
        uint16_t other = others[change % std::size(others)];
        return other != entry ? other : 0;
    }

    void row(Seconds library, Seconds plain, Seconds fill, size_t differ) const {
        std::printf("| %d | %d | %zu | %.4f | %.4f | %.1f | %.1f | %.1f | %.4f | %.1f | %zu |\n", rings_, k_, length_,
                    library.wall, plain.wall, library.processor / length_ * 1e9, plain.processor / length_ * 1e9,
                    library.processor / plain.processor, fill.wall, library.processor / fill.processor, differ);
    }

    int rings_, k_;
    size_t length_;
    Memory memory_;
    uint16_t *entries_;
};

} // namespace

size_t compare_checks(bool small) {
    std::printf("\n| rings | K | entries | library, s | plain, s | library, ns an entry | plain, ns an entry | library / plain "
                "| library's fill, s | check / fill | results that differ |\n|%s\n",
                "---:|---:|---:|---:|---:|---:|---:|---:|---:|---:|---:|");
    size_t differ = Checks(1, 9).compare() + Checks(2, 3).compare();
    if (!small)
        for (auto [rings, k] : {std::pair{2, 5}, {2, 9}, {3, 3}, {3, 4}}) differ += Checks(rings, k).compare();
    return differ;
}

} // namespace bench
