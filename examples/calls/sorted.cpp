#include "../lines.hpp"

int main() {
    const std::vector<std::int64_t> a{-4, 0, 7, 5, 9};
    std::array<bool, 4> falls{};
    std::transform(std::execution::par, a.begin(), a.end() - 1, a.begin() + 1, falls.begin(), std::greater<>{});
    lines::done("transform");
    lines::position("find_if", falls.begin(), falls.end(),
                    std::find(std::execution::par, falls.begin(), falls.end(), true));
    lines::print("falls", falls);
}
