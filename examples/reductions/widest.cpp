#include "../lines.hpp"

int main() {
    const std::vector<std::int64_t> a{5, 9, 2, 2, 20, 14};
    lines::answer("transform_reduce",
                  std::transform_reduce(std::execution::par, a.begin(), a.end() - 1, a.begin() + 1, std::int64_t{0},
                                        [](auto x, auto y) { return std::max(x, y); },
                                        [](auto x, auto y) { return std::abs(x - y); }));
}
