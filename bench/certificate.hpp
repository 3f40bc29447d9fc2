// A plain check of morris tablebases, in one thread and with no memory but a few KiB of locals.
#pragma once

#include <cstdint>
#include <optional>

namespace plain {

// The first place in a tablebase of largest count k whose entry is not right by those of the successors, if there is one.
std::optional<uint64_t> first_wrong(int rings, int k, const uint16_t *entries);

} // namespace plain
