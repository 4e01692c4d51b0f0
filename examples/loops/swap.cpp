#include "../lines.hpp"

int main() {
    std::vector<std::uint64_t> a{1, 2, 3}, b{7, 8, 9};
    std::swap_ranges(std::execution::par, a.begin(), a.end(), b.begin());
    lines::done("for_loop");
    lines::print("a", a);
    lines::print("b", b);
}
