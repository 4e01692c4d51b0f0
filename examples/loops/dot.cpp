#include "../lines.hpp"

int main() {
    const std::vector<std::int64_t> a{1, 2, 3}, b{4, -5, 6};
    std::vector<std::int64_t> s{100};
    s[0] = std::transform_reduce(std::execution::par, a.begin(), a.end(), b.begin(), s[0]);
    lines::done("for_loop");
    lines::print("s", s);
}
