#include "../lines.hpp"

int main() {
    const std::vector<std::uint64_t> a{4, 7, 2, 2, 9, 6};
    std::vector<std::uint64_t> counts(6);
    std::transform_inclusive_scan(std::execution::par, a.begin(), a.end(), counts.begin(), std::plus<>{},
                                  [](auto x) { return std::uint64_t{x % 2 == 0}; });
    lines::done("transform_inclusive_scan");
    lines::print("counts", counts);
}
