#include "../lines.hpp"

// The loop that every order of a wave agrees with.
int main() {
    const std::vector<std::uint64_t> x{5, 6, 7, 8};
    std::vector<std::uint64_t> a{1, 0, 0, 0, 0}, b(4);
    for (int i = 0; i < 4; ++i) {
        a[i + 1] = x[i] * 2;
        b[i] = a[i] + 1;
    }
    lines::done("for_loop");
    lines::print("a", a);
    lines::print("b", b);
}
