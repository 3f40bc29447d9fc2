// Runs the library and the plain solver on the same tablebases and positions, compares every result, and prints what each
// took. With the argument `small` it fills only small tablebases, with `large` only the large one.
#include "measure.hpp"

#include <cstdio>
#include <string>

int main(int argc, char **argv) {
    std::string what = argc > 1 ? argv[1] : "";
    bool small = what == "small", large = what == "large";
    if (argc > 2 || (argc == 2 && !small && !large)) bench::fail("the only arguments are `small` and `large`");
    std::setvbuf(stdout, nullptr, _IOLBF, 0);
    if (large) return bench::compare_large() != 0;
    size_t differ = bench::compare_fills(small);
    differ += bench::compare_pairs(small);
    differ += bench::compare_checks(small);
    differ += bench::compare_calls();
    return differ != 0;
}
