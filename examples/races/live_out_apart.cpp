#include "../lines.hpp"

int main() {
    const std::vector<std::uint64_t> a{3, 1, 4, 1, 5};
    std::vector<std::uint64_t> s{10, 0};
    s[1] = std::transform_reduce(std::execution::par, a.begin(), a.end(), s[1], std::plus<>{},
                                 [old = s[0]](auto x) { return x + old; });
    lines::done("for_loop");
    lines::print("s", s);
}
