#include "../lines.hpp"

int main() {
    const std::vector<std::int64_t> a{-1, 0, 1, std::numeric_limits<std::int64_t>::max()};
    std::array<bool, 4> b{};  // two threads must not write into one std::vector<bool>
    std::transform(std::execution::par, a.begin(), a.end(), b.begin(), [](auto x) { return x != 0; });
    lines::done("transform");
    lines::print("b", b);
    lines::answer("transform_reduce", std::transform_reduce(std::execution::par, b.begin(), b.end(), std::uint64_t{0},
                                                            std::plus<>{}, [](bool x) { return std::uint64_t{x}; }));
}
