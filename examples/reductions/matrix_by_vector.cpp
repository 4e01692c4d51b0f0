#include "../lines.hpp"

int main() {
    std::vector<std::int64_t> m(9), y(3);
    const std::vector<std::int64_t> v{2, 0, -1};
    std::iota(m.begin(), m.end(), 1);
    for (int row = 0; row < 3; ++row) {
        y[row] = std::transform_reduce(std::execution::par, v.begin(), v.end(), m.begin() + 3 * row, std::int64_t{0});
        lines::answer("transform_reduce", y[row]);
    }
    lines::print("y", y);
}
