#include "../lines.hpp"

int main() {
    const std::vector<std::int64_t> a{3, -8, 12, -8, 0};
    const auto [least, greatest] = std::minmax_element(std::execution::par_unseq, a.begin(), a.end());
    const std::array<std::int64_t, 2> ends{*least, *greatest};
    lines::done("for_loop");
    lines::print("ends", ends);
}
