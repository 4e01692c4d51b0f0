#include "../lines.hpp"

int main() {
    std::vector<std::int64_t> m(9), y(3);
    const std::vector<std::int64_t> v{2, 0, -1};
    std::iota(m.begin(), m.end(), 1);
    const auto rows = lines::indices(3);
    std::for_each(std::execution::par, rows.begin(), rows.end(), [&](auto row) {
        y[row] = std::inner_product(v.begin(), v.end(), m.begin() + 3 * row, std::int64_t{0});
    });
    lines::done("for_loop");
    lines::print("y", y);
}
