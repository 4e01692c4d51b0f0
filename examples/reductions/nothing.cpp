#include "../lines.hpp"

int main() {
    const std::vector<std::uint64_t> a{5, 6};
    const auto broken = [](auto) -> std::uint64_t { throw 1; };
    lines::answer("reduce", std::reduce(std::execution::par, a.end(), a.end(), std::uint64_t{7}));
    lines::answer("transform_reduce", std::transform_reduce(std::execution::par, a.begin(), a.begin(), std::uint64_t{3},
                                                            std::multiplies<>{}, broken));
}
