// What the benchmarks share of timing: how a time is taken, and the comparison of what is timed.
#pragma once
#include <algorithm>
#include <chrono>
#include <cstdint>
#include <cstdio>
#include <cstdlib>
#include <functional>
#include <vector>

namespace {

const char *const names[] = {"time", "handovers", "headroom", "worst", "reach"};

// Microseconds of f(i), on average over i below `inputs`: the best of several repeats for each i, so that another process that takes
// the core for a while does not show. What `undo` does after each is not timed.
double best(int repeats, int inputs, const std::function<void(int)> &f, const std::function<void(int)> &undo = [](int) {})
{
    double sum = 0;
    for (int i = 0; i < inputs; i++) {
        double least = 1e300;
        for (int k = 0; k < repeats; k++) {
            auto a = std::chrono::steady_clock::now();
            f(i);
            std::chrono::duration<double, std::micro> d = std::chrono::steady_clock::now() - a;
            least = std::min(least, d.count());
            undo(i);
        }
        sum += least;
    }
    return sum / inputs;
}

template <class T = uint32_t> void same(const char *what, const std::vector<T> &a, const std::vector<T> &b)
{
    if (a != b) {
        std::printf("bench: %s: the results differ\n", what);
        std::exit(1);
    }
}

} // namespace
