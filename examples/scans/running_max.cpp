#include "../lines.hpp"

int main() {
    const std::vector<std::int64_t> levels{3, 1, 4, 1, 5, 2};
    std::vector<std::int64_t> highest(6);
    std::inclusive_scan(std::execution::par, levels.begin(), levels.end(), highest.begin(),
                        [](auto x, auto y) { return std::max(x, y); });
    lines::done("inclusive_scan");
    lines::print("highest", highest);
}
