#include "../lines.hpp"

int main() {
    const std::vector<std::uint64_t> a{6, 0, 2};
    std::vector<std::uint64_t> b(3);
    std::transform(std::execution::par, a.begin(), a.end(), b.begin(), [](auto x) { return x == 0 ? 0 : 12 / x; });
    lines::done("for_loop");
    lines::print("b", b);
    std::transform(std::execution::par, a.begin(), a.end(), b.begin(), [](auto x) { return lines::divide(12, x); });
    lines::done("for_loop");
    lines::print("b", b);
}
