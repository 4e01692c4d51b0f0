#include "../lines.hpp"

int main() {
    const std::vector<std::uint64_t> a{18446744073709551615u, 9223372036854775808u};
    std::vector<std::uint64_t> b(2);
    std::transform(std::execution::par, a.begin(), a.end(), b.begin(), [](auto x) { return x + 1; });
    lines::done("transform");
    lines::print("b", b);
    std::transform(std::execution::par, a.begin(), a.end(), b.begin(), [](auto x) { return x * 2; });
    lines::done("transform");
    lines::print("b", b);
}
