#include "../lines.hpp"

int main() {
    const std::vector<std::uint64_t> a{0, 8, 4, 6, 2, 2, 10, 0};
    std::vector<std::uint64_t> b(8);
    std::transform(std::execution::par, a.begin(), a.end() - 2, a.begin() + 2, b.begin() + 1,
                   [](auto x, auto y) { return (x + y) / 2; });
    lines::done("transform");
    lines::print("b", b);
}
