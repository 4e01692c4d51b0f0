#include "../lines.hpp"

// std::reduce may group the digits in any way under every policy; std::accumulate is the fold.
int main() {
    const std::vector<std::uint64_t> digits{2, 0, 1, 8};
    lines::answer("reduce", std::accumulate(digits.begin(), digits.end(), std::uint64_t{0},
                                            [](auto x, auto y) { return x * 10 + y; }));
}
