#include "../lines.hpp"

int main() {
    const std::vector<std::uint64_t> a{3, 1, 4, 1, 5};
    const std::array<std::uint64_t, 1> count{
        static_cast<std::uint64_t>(std::count(std::execution::par, a.begin(), a.end(), std::uint64_t{1}))};
    lines::done("for_loop");
    lines::print("count", count);
}
