#include "../lines.hpp"

int main() {
    std::vector<std::int64_t> a{-20, 4, 13, -1, 9};
    std::for_each(std::execution::par, a.begin(), a.end(), [](auto& x) { x = std::clamp<std::int64_t>(x, 0, 9); });
    lines::done("for_loop");
    lines::print("a", a);
}
