#include "tablebase.hpp"

#include "morris.h"

namespace plain {
namespace {

// The position after a move; a removal of 31 takes no stone.
Position after(Position at, uint16_t number) {
    uint32_t from = 1u << number / 1024, to = 1u << number / 32 % 32, removed = 1u << number % 32;
    return {at.opponent & ~removed, (at.mover & ~from) | to};
}

// A better move leads to a lower number: lost positions by rising depth, then draws, then won ones by falling depth.
uint32_t order(uint16_t entry) {
    if (entry == MORRIS_DRAW) return 0x10000;
    return entry % 2 == 0 ? entry : 0x20000 - entry;
}

} // namespace

Tablebase::Tablebase(const Board &board, int k, const uint16_t *entries) : board_(board), entries_(entries) {
    for (int m = STONES_MIN; m <= k; m++)
        for (int o = STONES_MIN; o <= k; o++) starts_[m][o] = board.start(m, o, k);
}

BestMove Tablebase::best_move(Position at) const {
    uint16_t list[MORRIS_MOVES_MAX];
    int length = board_.moves(at, list);
    if (length == 0) return {0, 0};
    BestMove best{list[0], entry_after(after(at, list[0]))};
    for (int i = 1; i < length; i++) {
        uint16_t entry = entry_after(after(at, list[i]));
        if (order(entry) < order(best.entry)) best = {list[i], entry};
    }
    return best;
}

} // namespace plain
