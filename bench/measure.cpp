#include "measure.hpp"

#include <cstdio>
#include <cstdlib>
#include <ctime>

#include <sys/mman.h>

namespace bench {
namespace {

constexpr size_t HUGE_PAGE = 2 << 20;

double seconds(clockid_t clock) {
    timespec time;
    clock_gettime(clock, &time);
    return time.tv_sec + time.tv_nsec / 1e9;
}

} // namespace

void fail(const std::string &what) {
    std::fprintf(stderr, "bench: %s\n", what.c_str());
    std::exit(1);
}

double wall() { return seconds(CLOCK_MONOTONIC); }
double processor() { return seconds(CLOCK_PROCESS_CPUTIME_ID); }

Memory::Memory(size_t bytes, Kind kind) : bytes_((bytes + HUGE_PAGE - 1) / HUGE_PAGE * HUGE_PAGE) {
    int visibility = kind == Kind::SHARED ? MAP_SHARED : MAP_PRIVATE;
    memory_ = mmap(nullptr, bytes_, PROT_READ | PROT_WRITE, visibility | MAP_ANONYMOUS, -1, 0);
    if (memory_ == MAP_FAILED) fail("no memory");
    if (kind == Kind::OWN) madvise(memory_, bytes_, MADV_HUGEPAGE);
}

Memory::~Memory() { munmap(memory_, bytes_); }

} // namespace bench
