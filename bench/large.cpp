// The large tablebase: there is memory for one buffer only, so that the tables are compared by checksums.
#include "board.hpp"
#include "measure.hpp"
#include "morris.h"
#include "runs.hpp"

#include <algorithm>
#include <cinttypes>
#include <cstdio>
#include <string>
#include <vector>

namespace bench {
namespace {

constexpr int RINGS = 3, K = 6;

struct Stones {
    int mover, opponent;
};

struct Digest {
    uint64_t checksum;
    int greatest_depth; // -1 where all are draws

    bool operator==(const Digest &) const = default;
};

// A checksum that the change of any one entry changes: no step maps two values to one.
Digest digest_of(const uint16_t *entries, size_t length) {
    Digest digest{14695981039346656037u, -1};
    for (size_t i = 0; i < length; i++) {
        digest.checksum = (digest.checksum ^ entries[i]) * 1099511628211u;
        if (entries[i] < MORRIS_VOID) digest.greatest_depth = std::max<int>(digest.greatest_depth, entries[i]);
    }
    return digest;
}

// A run, and the digests of the tables that it filled.
class Digested {
  public:
    Digested(Solver solver, const std::vector<Stones> &tables)
        : tables_(tables.size()), memory_(tables.size() * sizeof(Digest), Memory::Kind::SHARED),
          run_(solver, RINGS, K, [&](const uint16_t *entries, size_t) {
              plain::Board board(RINGS);
              for (size_t i = 0; i < tables.size(); i++) {
                  auto [m, o] = tables[i];
                  memory_.as<Digest>()[i] = digest_of(entries + board.start(m, o, K), board.size(m, o));
              }
          }) {}

    const Run &run() const { return run_; }
    const Digest &of(size_t table) const { return memory_.as<Digest>()[table]; }

    int greatest_depth() const {
        int greatest = -1;
        for (size_t i = 0; i < tables_; i++) greatest = std::max(greatest, of(i).greatest_depth);
        return greatest;
    }

  private:
    size_t tables_;
    Memory memory_;
    Run run_;
};

std::string depth(int greatest) { return greatest < 0 ? "-" : std::to_string(greatest); }

void print_tables(const std::vector<Stones> &tables, const Digested &library, const Digested &plain) {
    std::printf("\n| stones | entries | library, greatest depth | plain, greatest depth | library, checksum "
                "| plain, checksum |\n|---:|---:|---:|---:|---:|---:|\n");
    for (size_t i = 0; i < tables.size(); i++) {
        auto [m, o] = tables[i];
        const Digest &ours = library.of(i), &theirs = plain.of(i);
        std::printf("| %d, %d | %" PRIu64 " | %s | %s | %016" PRIx64 " | %016" PRIx64 " |\n", m, o,
                    plain::Board(RINGS).size(m, o), depth(ours.greatest_depth).c_str(), depth(theirs.greatest_depth).c_str(),
                    ours.checksum, theirs.checksum);
    }
}

} // namespace

size_t compare_large() {
    std::vector<Stones> tables;
    for (int m = plain::STONES_MIN; m <= K; m++)
        for (int o = plain::STONES_MIN; o <= K; o++)
            if (plain::Board(RINGS).has_table(m, o, K)) tables.push_back({m, o});
    print_head(" library, greatest depth | plain, greatest depth | tables that differ |", 3);
    Digested plain(Solver::PLAIN, tables), library(Solver::LIBRARY, tables);
    size_t differ = 0;
    for (size_t i = 0; i < tables.size(); i++) differ += library.of(i) != plain.of(i);
    print_row_start(RINGS, K, library.run(), plain.run());
    std::printf(" %s | %s | %zu |\n", depth(library.greatest_depth()).c_str(), depth(plain.greatest_depth()).c_str(), differ);
    print_tables(tables, library, plain);
    return differ;
}

} // namespace bench
