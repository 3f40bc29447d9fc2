#include "runs.hpp"

#include "board.hpp"
#include "morris.h"
#include "solver.hpp"

#include <algorithm>
#include <cstdio>

#include <sys/resource.h>
#include <sys/wait.h>
#include <unistd.h>

namespace bench {

Run::Run(Solver solver, int rings, int k, const std::function<void(const uint16_t *, size_t)> &keep)
    : length_(plain::Board(rings).length(k)), measured_(sizeof(Measured), Memory::Kind::SHARED) {
    std::fprintf(stderr, "rings %d, K %d, %s ... ", rings, k, solver == Solver::PLAIN ? "plain" : "library");
    pid_t child = fork();
    if (child < 0) fail("no process");
    if (child == 0) {
        Memory buffer(length_ * sizeof(uint16_t), Memory::Kind::OWN);
        fill(solver, rings, k, buffer.as<uint16_t>());
        keep(buffer.as<uint16_t>(), length_);
        _exit(0);
    }
    int status = 0;
    if (waitpid(child, &status, 0) != child || status != 0) fail("a solver failed");
    std::fprintf(stderr, "%.3f s, %.3f s of processor time\n", measured().wall, measured().processor);
}

void Run::fill(Solver solver, int rings, int k, uint16_t *entries) {
    std::fill_n(entries, length_, uint16_t{7});
    double wall_start = wall(), processor_start = processor();
    if (solver == Solver::PLAIN)
        plain::fill(rings, k, entries);
    else if (int refusal = morris_fill(rings, EDITION, k, LIMIT, entries, length_))
        fail("morris_fill refused " + std::to_string(refusal));
    measured().wall = wall() - wall_start;
    measured().processor = processor() - processor_start;
    rusage usage;
    getrusage(RUSAGE_SELF, &usage);
    measured().peak_kib = usage.ru_maxrss;
}

void print_head(const char *further, int further_columns) {
    std::printf("| rings | K | entries | library, s | plain, s | library, ns an entry | plain, ns an entry | library / plain "
                "| library, MiB | plain, MiB |%s\n|---:|---:|---:|---:|---:|---:|---:|---:|---:|---:|",
                further);
    for (int i = 0; i < further_columns; i++) std::printf("---:|");
    std::printf("\n");
}

void print_row_start(int rings, int k, const Run &library, const Run &plain) {
    std::printf("| %d | %d | %zu | %.4f | %.4f | %.1f | %.1f | %.1f | %.1f | %.1f |", rings, k, plain::Board(rings).length(k),
                library.wall_seconds(), plain.wall_seconds(), library.nanoseconds_an_entry(), plain.nanoseconds_an_entry(),
                library.nanoseconds_an_entry() / plain.nanoseconds_an_entry(), library.peak_mib(), plain.peak_mib());
}

} // namespace bench
