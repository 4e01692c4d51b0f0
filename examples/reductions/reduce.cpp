#include "../lines.hpp"

int main() {
    const std::vector<std::uint64_t> amounts{1250, 399, 7800, 1499, 250, 4075};
    std::vector<std::uint64_t> results(2);
    results[0] = std::reduce(std::execution::par, amounts.begin(), amounts.end(), std::uint64_t{0}, std::plus<>{});
    lines::answer("reduce", results[0]);
    results[1] = std::reduce(std::execution::seq, amounts.begin(), amounts.end(), std::uint64_t{0},
                             [](auto x, auto y) { return std::max(x, y); });
    lines::answer("reduce", results[1]);
    lines::print("results", results);
}
