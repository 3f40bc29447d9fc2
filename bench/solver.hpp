// A plain solver of morris tablebases, in one thread and with no memory but the buffer and a few KiB of locals.
#pragma once

#include <cstdint>

namespace plain {

// Fills the tablebase of largest count k on a board of 1, 2 or 3 rings.
void fill(int rings, int k, uint16_t *entries);

// Fills the tables (mover, opponent) and (opponent, mover) over their lower tables.
void fill_pair(int rings, int mover, int opponent, int k, uint16_t *entries);

} // namespace plain
