// Clocks and memory for the benchmark.
#pragma once

#include <cstddef>
#include <cstdint>
#include <string>

namespace bench {

// The rules edition that the plain solver plays by.
constexpr uint8_t EDITION = 1;

// The highest limit that the library takes: no depth lies beyond it.
constexpr uint32_t LIMIT = 65533;

// Prints what went wrong and ends the program.
[[noreturn]] void fail(const std::string &what);

// Seconds on the wall clock, and seconds that this process had a processor.
double wall();
double processor();

// Memory of zeros, given back when this ends.
class Memory {
  public:
    enum class Kind {
        OWN,    // of this process, in huge pages where the machine grants them
        SHARED, // a child process writes what this one reads
    };

    Memory(size_t bytes, Kind kind);
    ~Memory();
    Memory(const Memory &) = delete;
    Memory &operator=(const Memory &) = delete;

    template <class T> T *as() const { return static_cast<T *>(memory_); }

  private:
    size_t bytes_;
    void *memory_;
};

// The tables. Each returns how many results differ; `small`: whether only the small tablebases are to be filled.
size_t compare_fills(bool small);
size_t compare_pairs(bool small);
size_t compare_checks(bool small);
size_t compare_calls();
size_t compare_large();

} // namespace bench
