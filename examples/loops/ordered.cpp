#include "../lines.hpp"

int main() {
    const std::vector<std::int64_t> a{1, 2, 3, 4};
    std::vector<std::int64_t> s{10};
    for (const auto x : a) s[0] -= x * 2;
    lines::done("for_loop");
    lines::print("s", s);
}
