#include "../lines.hpp"

int main() {
    std::vector<std::uint64_t> prices{100, 250, 399, 1000, 7};
    std::for_each(std::execution::par, prices.begin(), prices.end(), [](std::uint64_t& x) { x = x * 115 / 100; });
    lines::done("for_each");
    lines::print("prices", prices);
}
