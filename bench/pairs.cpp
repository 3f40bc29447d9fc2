// The table of pairs: how the time to fill a pair of tables grows with its entries and with the levels that its depths make.
#include "board.hpp"
#include "measure.hpp"
#include "morris.h"
#include "solver.hpp"

#include <algorithm>
#include <bitset>
#include <cstdio>
#include <utility>
#include <vector>

namespace bench {
namespace {

// Two tablebases of the same size, filled pair by pair in order, one by each solver.
class Tablebases {
  public:
    Tablebases(int rings, int k)
        : board_(rings), rings_(rings), k_(k), length_(board_.length(k)),
          library_memory_(length_ * sizeof(uint16_t), Memory::Kind::OWN),
          plain_memory_(length_ * sizeof(uint16_t), Memory::Kind::OWN), library_(library_memory_.as<uint16_t>()),
          plain_(plain_memory_.as<uint16_t>()) {
        for (uint16_t *entries : {library_, plain_}) std::fill_n(entries, length_, uint16_t{7});
    }

    // One row for each pair; returns how many entries differ.
    size_t compare() {
        size_t differ = 0;
        for (int mover = plain::STONES_MIN; mover <= k_; mover++)
            for (int opponent = plain::STONES_MIN; opponent <= mover; opponent++)
                if (board_.has_table(mover, opponent, k_)) differ += compare_pair(mover, opponent);
        return differ;
    }

  private:
    struct Table {
        size_t start, end;
    };
    using Tables = std::vector<Table>;
    using Depths = std::bitset<MORRIS_VOID>;

    void add(Tables &tables, int mover, int opponent) const {
        if (!board_.has_table(mover, opponent, k_)) return;
        size_t start = board_.start(mover, opponent, k_);
        tables.push_back({start, start + board_.size(mover, opponent)});
    }

    void add_depths(Depths &depths, const Tables &tables) const {
        for (auto [start, end] : tables)
            for (size_t i = start; i < end; i++)
                if (plain_[i] < MORRIS_VOID) depths.set(plain_[i]);
    }

    double library_seconds(int mover, int opponent) {
        double start = processor();
        int refusal = morris_fill_pair(rings_, EDITION, mover, opponent, k_, LIMIT, library_, length_);
        if (refusal) fail("morris_fill_pair refused " + std::to_string(refusal));
        return processor() - start;
    }

    double plain_seconds(int mover, int opponent) {
        double start = processor();
        plain::fill_pair(rings_, mover, opponent, k_, plain_);
        return processor() - start;
    }

    size_t compare_pair(int mover, int opponent) {
        std::fprintf(stderr, "rings %d, pair %d, %d ... ", rings_, mover, opponent);
        double plain = plain_seconds(mover, opponent), library = library_seconds(mover, opponent);
        std::fprintf(stderr, "plain %.3f s, library %.3f s of processor time\n", plain, library);

        Tables pair, lower;
        add(pair, mover, opponent);
        add(lower, opponent - 1, mover);
        if (mover != opponent) {
            add(pair, opponent, mover);
            add(lower, mover - 1, opponent);
        }
        size_t entries = 0, differ = 0;
        for (auto [start, end] : pair) {
            entries += end - start;
            for (size_t i = start; i < end; i++) differ += library_[i] != plain_[i];
        }
        row(mover, opponent, entries, pair, lower, library, plain, differ);
        return differ;
    }

    // Each depth n, of the pair or of the lower tables, makes a level n + 1; two stones have depth 0. Level 0 is always there.
    void row(int mover, int opponent, size_t entries, const Tables &pair, const Tables &lower, double library, double plain,
             size_t differ) const {
        Depths depths;
        add_depths(depths, pair);
        size_t greatest = MORRIS_VOID;
        while (greatest > 0 && !depths.test(greatest - 1)) greatest--;
        add_depths(depths, lower);
        if (opponent == plain::STONES_MIN) depths.set(0);
        size_t levels = depths.count() + 1;
        double library_an_entry = library / entries * 1e9, plain_an_entry = plain / entries * 1e9;
        std::printf("| %d | %d, %d | %zu | %zu | %s | %.3f | %.3f | %.1f | %.1f | %.2f | %.2f | %.1f | %zu |\n", rings_, mover,
                    opponent, entries, levels, greatest ? std::to_string(greatest - 1).c_str() : "-", library, plain,
                    library_an_entry, plain_an_entry, library_an_entry / levels, plain_an_entry / levels, library / plain,
                    differ);
    }

    plain::Board board_;
    int rings_, k_;
    size_t length_;
    Memory library_memory_, plain_memory_;
    uint16_t *library_, *plain_;
};

} // namespace

size_t compare_pairs(bool small) {
    std::printf("\n| rings | stones | entries | levels | greatest depth | library, s | plain, s | library, ns an entry "
                "| plain, ns an entry | library, ns an entry and level | plain, ns an entry and level | library / plain "
                "| entries that differ |\n|%s\n",
                "---:|---:|---:|---:|---:|---:|---:|---:|---:|---:|---:|---:|---:|");
    size_t differ = 0;
    if (small)
        differ += Tablebases(1, 9).compare() + Tablebases(2, 3).compare();
    else
        for (auto [rings, k] : {std::pair{2, 9}, {3, 5}}) differ += Tablebases(rings, k).compare();
    return differ;
}

} // namespace bench
