#include "../lines.hpp"

int main() {
    std::vector<std::uint64_t> a(5);
    const auto turns = lines::indices(5);
    std::for_each(std::execution::par, turns.begin(), turns.end(), [&](auto i) { a[i] = 10 + 3 * i; });
    lines::done("for_loop");
    lines::print("a", a);
}
