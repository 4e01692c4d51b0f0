#include "../lines.hpp"

int main() {
    std::vector<std::uint64_t> a{0, 5};
    std::for_each(std::execution::par, a.begin(), a.end(), [](std::uint64_t& x) { x = x - 1; });
    lines::done("for_each");
    lines::print("a", a);
}
