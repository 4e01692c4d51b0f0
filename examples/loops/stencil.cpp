#include "../lines.hpp"

int main() {
    const std::vector<std::uint64_t> a{0, 9, 3, 6, 6, 0, 12, 3};
    std::vector<std::uint64_t> b(8);
    const auto turns = lines::indices(8);
    std::for_each(std::execution::par, turns.begin() + 1, turns.end() - 1,
                  [&](auto i) { b[i] = (a[i - 1] + a[i] + a[i + 1]) / 3; });
    lines::done("for_loop");
    lines::print("b", b);
}
