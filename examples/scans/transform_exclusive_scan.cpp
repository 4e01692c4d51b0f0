#include "../lines.hpp"

int main() {
    const std::vector<std::uint64_t> a{12, 5, 31, 10, 11, 40};
    std::vector<std::uint64_t> places(6);
    std::transform_exclusive_scan(std::execution::par, a.begin(), a.end(), places.begin(), std::uint64_t{0}, std::plus<>{},
                                  [](auto x) { return std::uint64_t{10 < x}; });
    lines::done("transform_exclusive_scan");
    lines::print("places", places);
}
