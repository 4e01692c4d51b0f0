#include "../lines.hpp"

int main() {
    const std::vector<std::uint64_t> a{4, 7, 2, 2, 9, 6, 8};
    std::vector<std::uint64_t> places(7);
    const auto stays = [](auto x) { return std::uint64_t{x % 2 == 0}; };
    std::transform_exclusive_scan(std::execution::par, a.begin(), a.end(), places.begin(), std::uint64_t{0}, std::plus<>{},
                                  stays);
    lines::done("transform_exclusive_scan");
    lines::answer("transform_reduce", std::transform_reduce(std::execution::par, a.begin(), a.end(), std::uint64_t{0},
                                                            std::plus<>{}, stays));
    lines::print("places", places);
}
