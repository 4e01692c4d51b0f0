#include "../lines.hpp"

int main() {
    const std::vector<std::uint64_t> a{1, 2, 3, 4, 5};
    std::vector<std::uint64_t> b(5);
    std::copy(std::execution::par, a.begin() + 1, a.end(), b.begin());
    lines::done("for_loop");
    lines::print("b", b);
}
