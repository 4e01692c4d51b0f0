// What the C++ programs of this gallery share: lines as ptsrun prints them, the line of a run that ends by std::terminate, and
// operations that throw where a number leaves its kind or is divided by 0.
#pragma once

#include <algorithm>
#include <array>
#include <cstddef>
#include <cstdint>
#include <cstdlib>
#include <exception>
#include <execution>
#include <functional>
#include <iostream>
#include <limits>
#include <numeric>
#include <stdexcept>
#include <vector>

namespace lines {

inline int statements = 0;

template <typename... Parts>
void line(const Parts&... parts) {
    std::cout << ++statements << ": ";
    (std::cout << ... << parts) << '\n';
}

inline void done(const char* word) { line(word); }

template <typename Value>
void answer(const char* word, const Value& value) {
    line(word, ' ', value);
}

template <typename Iterator>
void position(const char* word, Iterator begin, Iterator end, Iterator found) {
    if (found == end) {
        line(word, " end");
    } else {
        line(word, ' ', found - begin);
    }
}

template <typename Cells>
void print(const char* name, const Cells& cells) {
    std::cout << ++statements << ": print " << name;
    for (const auto& cell : cells) std::cout << ' ' << cell;
    std::cout << '\n';
}

// The numbers from 0 to below an end, over which a loop of the standard algorithms goes.
inline std::vector<std::size_t> indices(std::size_t end) {
    std::vector<std::size_t> turns(end);
    std::iota(turns.begin(), turns.end(), 0);
    return turns;
}

inline constexpr auto add = [](std::int64_t x, std::int64_t y) {
    std::int64_t sum;
    if (__builtin_add_overflow(x, y, &sum)) throw std::overflow_error{"the sum is no i64"};
    return sum;
};

inline constexpr auto subtract = [](std::int64_t x, std::int64_t y) {
    std::int64_t difference;
    if (__builtin_sub_overflow(x, y, &difference)) throw std::overflow_error{"the difference is no i64"};
    return difference;
};

inline constexpr auto divide = [](auto x, auto y) {
    if (y == 0) throw std::domain_error{"a division by 0"};
    return x / y;
};

inline const bool ready = [] {
    std::cout << std::boolalpha;
    std::set_terminate([] {
        line("terminated");
        std::cout.flush();
        std::_Exit(3);
    });
    return true;
}();

}  // namespace lines
