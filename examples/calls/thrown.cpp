#include "../lines.hpp"

int main() {
    std::vector<std::uint64_t> a{6, 0, 2};
    lines::print("a", a);
    std::for_each(std::execution::par, a.begin(), a.end(), [](auto& x) { x = lines::divide(12, x); });
    lines::done("for_each");
    lines::print("a", a);
}
