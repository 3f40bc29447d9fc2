#include "solver.hpp"

#include "board.hpp"
#include "images.hpp"
#include "ranks.hpp"
#include "scan.hpp"
#include "successors.hpp"
#include "walk.hpp"

#include <algorithm>
#include <cstring>

namespace plain {
namespace {

constexpr uint16_t OPEN = 65535; // no depth is known; a draw, once the pair is done
constexpr uint16_t MARK = 65534; // open, and to be tested on this level

// Fills a pair of tables level by level. A position has depth n + 1 only if some successor has depth n. So the open positions
// before those of depth n are marked, and each marked one is tested by its successors. By classes, moves are taken back from
// the least position of a class only, and what is found is written at all images.
class Filling {
  public:
    Filling(const Board &board, int k, uint16_t *entries) : board_(board), images_(board), k_(k), entries_(entries) {}

    // Over lower tables of true entries.
    void pair(int mover, int opponent) {
        Side sides[2] = {side(mover, opponent), side(opponent, mover)};
        int tables = mover == opponent ? 1 : 2;
        bool reached[2] = {false, false}; // by table: whether the present level is a depth of it
        for (int i = 0; i < tables; i++) reached[i] = fill_level_0(sides[i].table);
        level_ = 0;
        for (;;) {
            int depth = reached[0] || reached[1] ? level_ : std::min(sides[0].lower_depth, sides[tables - 1].lower_depth);
            if (depth >= MARK) return;
            level_ = depth + 1;
            bool sources[2] = {reached[tables - 1], reached[0]};
            for (int i = 0; i < tables; i++) reached[i] = fill_level(sides[i], sources[i]);
        }
    }

    // Over lower tables of any entries.
    void given_pair(int mover, int opponent) {
        classes_ = is_symmetric(table(opponent - 1, mover)) && (mover == opponent || is_symmetric(table(mover - 1, opponent)));
        pair(mover, opponent);
    }

  private:
    struct Table {
        int mover, opponent;
        uint16_t *entries;
        size_t size;
    };

    // A table of the pair, and those of its successors: without removal, and with it (not stored where two stones are left).
    struct Side {
        Table table, moved, lower;
        int lower_depth; // the least depth that the lower table has from the present level on, else no depth
    };

    Table table(int mover, int opponent) const {
        if (!board_.has_table(mover, opponent, k_)) return {mover, opponent, nullptr, 0};
        return {mover, opponent, entries_ + board_.start(mover, opponent, k_), board_.size(mover, opponent)};
    }

    Side side(int mover, int opponent) const {
        Table lower = table(opponent - 1, mover);
        int lower_depth = lower.entries ? least_from(lower.entries, lower.size, 0) : 0;
        return {table(mover, opponent), table(opponent, mover), lower, lower_depth};
    }

    // Whether images have the same entry throughout a table; one that is not stored has none. A turn, a mirror and the rings
    // reversed make all images. If no decided position has one of another entry, no draw has.
    bool is_symmetric(const Table &table) const {
        bool symmetric = true;
        for_entries<false>(table, OPEN, [&](Position at, size_t rank) {
            if (!symmetric) return;
            ImageRanks images(images_, at);
            for (uint64_t image : {images.in_order(1), images.in_order(4), images.reversed(0)})
                symmetric &= table.entries[image] == table.entries[rank];
        });
        return symmetric;
    }

    // Depth 0: the opponent stands wherever the mover's stones could go. Returns whether there is such a position.
    bool fill_level_0(const Table &table) const {
        bool reached = false;
        std::memset(table.entries, OPEN & 255, table.size * sizeof(OPEN));
        uint32_t all = below(board_.points());
        for_subsets(all, table.mover, 0, [&](uint32_t mover) {
            uint32_t ways = (table.mover == STONES_MIN ? all : board_.neighbours_of(mover)) & ~mover;
            int others = table.opponent - std::popcount(ways);
            for_subsets(all & ~mover & ~ways, others, ways, [&](uint32_t opponent) {
                table.entries[board_.rank({mover, opponent})] = 0;
                reached = true;
            });
        });
        return reached;
    }

    // Calls `use` with the union of `chosen` and each subset of so many members.
    template <class Use> static void for_subsets(uint32_t set, int members, uint32_t chosen, const Use &use) {
        if (members == 0) return use(chosen);
        while (members > 0 && set) {
            uint32_t one = 1u << pop(set);
            for_subsets(set, members - 1, chosen | one, use);
        }
    }

    // Returns whether some position of the table has the level as its depth. `sources`: whether the table of the successors
    // without removal has the depth before. A table that does not have it is not scanned.
    bool fill_level(Side &side, bool sources) {
        side_ = side;
        int depth = level_ - 1;
        bool lower_sources = side.lower_depth == depth;
        if (sources) for_sources(side.moved, depth, [&](Position at) { unmove(at); });
        if (lower_sources) side.lower_depth = uncapture_all(side.lower, depth);
        return (sources || lower_sources) && test_all();
    }

    // Each marked position gets the level, or is open again. Returns whether one got it.
    bool test_all() const {
        bool reached = false;
        for_entries(side_.table, MARK, [&](Position at, size_t rank) {
            if (level_ % 2 == 1 ? won(at) : lost(at)) {
                write(at, rank);
                reached = true;
            } else
                side_.table.entries[rank] = OPEN;
        });
        return reached;
    }

    // Writes the level. Marked images are no marks any more.
    void write(Position at, size_t rank) const {
        if (classes_)
            ImageRanks(images_, at).for_all([&](uint64_t image) { side_.table.entries[image] = level_; });
        else
            side_.table.entries[rank] = level_;
    }

    // Marks what is before the positions of a depth in a lower table; returns the next depth there. A side with two stones has
    // lost, at depth 0.
    int uncapture_all(const Table &lower, int depth) const {
        if (lower.entries) {
            for_sources(lower, depth, [&](Position at) { uncapture(at); });
            return least_from(lower.entries, lower.size, depth + 1);
        }
        Walk walk(board_, lower.mover, lower.opponent);
        for (size_t rank = 0, size = board_.size(lower.mover, lower.opponent); rank < size; rank++)
            if (Position at = walk.to(rank); is_source(at)) uncapture(at);
        return OPEN;
    }

    // Calls `use` with every position from which moves are taken back: of the entry, and by classes the least of its class.
    template <class Use> void for_sources(const Table &table, uint16_t entry, const Use &use) const {
        for_entries(table, entry, [&](Position at, size_t) {
            if (is_source(at)) use(at);
        });
    }

    bool is_source(Position at) const { return !classes_ || images_.least(at); }

    // Calls `use` with every position that has the given entry in a table, or another one, and its rank.
    template <bool EQUAL = true, class Use> void for_entries(const Table &table, uint16_t entry, const Use &use) const {
        Walk walk(board_, table.mover, table.opponent);
        for_equal<EQUAL>(table.entries, table.size, entry, [&](size_t rank) { use(walk.to(rank), rank); });
    }

    bool flies() const { return side_.table.mover == STONES_MIN; }

    void mark(uint64_t rank) const {
        uint16_t &entry = side_.table.entries[rank];
        entry = entry == OPEN ? MARK : entry; // a write that is not needed is cheaper than a branch that is not foreseen
    }

    // Marks the positions with a ply to `at` that takes nothing.
    void unmove(Position at) const { come_from(at, at.opponent); }

    // Marks the positions with a ply to `at` that takes a stone.
    void uncapture(Position at) const {
        uint32_t milled = board_.milled(at.opponent), free = board_.vacant(at);
        if (!milled) return;
        if (flies())
            while (free) come_from({at.mover | 1u << pop(free), at.opponent}, milled);
        else
            uncapture_slides(at, milled);
    }

    // There are fewer slides to take back than points for the stone that was taken: slides are the outer loop.
    void uncapture_slides(Position at, uint32_t to_set) const {
        uint32_t free = board_.vacant(at);
        while (to_set) {
            int to = pop(to_set);
            for (uint32_t from_set = free & board_.neighbours(to); from_set;) {
                uint32_t from = 1u << pop(from_set);
                InsertedRanks ranks({(at.opponent & ~(1u << to)) | from, at.mover});
                for (uint32_t takes = free & ~from; takes;) mark(ranks.rank(pop(takes)));
            }
        }
    }

    // Marks the positions before a stone of `to_set` came to where it stands.
    void come_from(Position at, uint32_t to_set) const {
        uint32_t free = board_.vacant(at);
        MovedRanks<0> ranks({at.opponent, at.mover});
        if (flies()) {
            FlownRanks flown(ranks, free);
            while (to_set) flown.for_all(pop(to_set), [&](uint64_t rank) { mark(rank); });
        } else
            while (to_set) {
                int to = pop(to_set);
                for (uint32_t rest = free & board_.neighbours(to); rest;) mark(ranks.rank(to, pop(rest)));
            }
    }

    bool won(Position at) const {
        return successors().any(at, [depth = level_ - 1](uint16_t entry) { return entry == depth; });
    }

    bool lost(Position at) const {
        return !successors().any(at, [depth = level_ - 1](uint16_t entry) { return entry % 2 == 0 || entry > depth; });
    }

    Successors successors() const { return {board_, side_.table.mover, side_.moved.entries, side_.lower.entries}; }

    const Board &board_;
    Images images_;
    int k_;
    uint16_t *entries_;
    bool classes_ = true;
    Side side_{}; // what is filled
    int level_ = 0;
};

} // namespace

void fill_pair(int rings, int mover, int opponent, int k, uint16_t *entries) {
    Board board(rings);
    Filling(board, k, entries).given_pair(mover, opponent);
}

void fill(int rings, int k, uint16_t *entries) {
    Board board(rings);
    Filling filling(board, k, entries);
    for (int m = STONES_MIN; m <= k; m++)
        for (int o = STONES_MIN; o <= m; o++)
            if (board.has_table(m, o, k)) filling.pair(m, o);
}

} // namespace plain
