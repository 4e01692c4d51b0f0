#include "../lines.hpp"

int main() {
    const std::vector<std::uint64_t> a{3, 1, 4, 1, 5};
    std::vector<std::uint64_t> b(5);
    for (int i = 4; i > -1; --i) b[4 - i] = a[i];
    lines::done("for_loop");
    lines::print("b", b);
}
