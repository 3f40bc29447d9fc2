// A solver's fill of a whole tablebase, measured in a process of its own; and the columns that compare two such runs.
#pragma once

#include "measure.hpp"

#include <functional>

namespace bench {

enum class Solver { LIBRARY, PLAIN };

class Run {
  public:
    // In the process of the run, after it is measured: `keep` is called with the entries. What it writes to shared memory is
    // there afterwards.
    Run(Solver solver, int rings, int k, const std::function<void(const uint16_t *entries, size_t length)> &keep);

    double wall_seconds() const { return measured().wall; }
    double nanoseconds_an_entry() const { return measured().processor / length_ * 1e9; }
    double peak_mib() const { return measured().peak_kib / 1024.0; }

  private:
    struct Measured {
        double wall, processor;
        long peak_kib;
    };

    Measured &measured() const { return *measured_.as<Measured>(); }
    void fill(Solver solver, int rings, int k, uint16_t *entries);

    size_t length_;
    Memory measured_;
};

// The columns that every table of runs begins with: the head with given further columns, and the start of a row.
void print_head(const char *further, int further_columns);
void print_row_start(int rings, int k, const Run &library, const Run &plain);

} // namespace bench
