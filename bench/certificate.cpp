#include "certificate.hpp"

#include "board.hpp"
#include "morris.h"
#include "successors.hpp"
#include "walk.hpp"

namespace plain {
namespace {

bool is_lost(uint16_t entry) { return entry % 2 == 0 && entry != MORRIS_VOID; }
bool is_won(uint16_t entry) { return entry % 2 == 1 && entry != MORRIS_DRAW; }

// Document 02's rules of a right entry, A8. Each goes over the successors once, and no further than what settles it.
class Rules {
  public:
    explicit Rules(const Successors &successors) : successors_(successors) {}

    bool right(Position at, uint16_t entry) const {
        if (entry == MORRIS_DRAW) return draw_right(at);
        if (entry == MORRIS_VOID) return false;
        if (entry % 2 == 1) return won_right(at, entry);
        return entry == 0 ? blocked(at) : lost_right(at, entry);
    }

  private:
    bool blocked(Position at) const {
        return !successors_.any(at, [](uint16_t) { return true; });
    }

    // The quickest lost successor has one ply less; none has less than 0.
    bool won_right(Position at, uint16_t depth) const {
        if (depth == 1) return successors_.any(at, [](uint16_t entry) { return entry == 0; });
        bool found = false;
        bool quicker = successors_.any(at, [&, before = depth - 1](uint16_t entry) {
            found |= entry == before;
            return entry % 2 == 0 && entry < before;
        });
        return found && !quicker;
    }

    // All successors are won, and the slowest has one ply less.
    bool lost_right(Position at, uint16_t depth) const {
        bool found = false;
        bool other = successors_.any(at, [&, before = depth - 1](uint16_t entry) {
            found |= entry == before;
            return entry % 2 == 0 || entry > before;
        });
        return found && !other;
    }

    bool draw_right(Position at) const {
        bool found = false;
        bool lost = successors_.any(at, [&](uint16_t entry) {
            found |= !is_won(entry);
            return is_lost(entry);
        });
        return found && !lost;
    }

    const Successors &successors_;
};

} // namespace

std::optional<uint64_t> first_wrong(int rings, int k, const uint16_t *entries) {
    Board board(rings);
    auto table = [&](int m, int o) { return board.has_table(m, o, k) ? entries + board.start(m, o, k) : nullptr; };
    for (int m = STONES_MIN; m <= k; m++)
        for (int o = STONES_MIN; o <= k; o++) {
            const uint16_t *own = table(m, o);
            if (!own) continue;
            Successors successors(board, m, table(o, m), table(o - 1, m));
            Rules rules(successors);
            Walk walk(board, m, o);
            for (uint64_t rank = 0, size = board.size(m, o); rank < size; rank++)
                if (!rules.right(walk.to(rank), own[rank])) return own - entries + rank;
        }
    return std::nullopt;
}

} // namespace plain
