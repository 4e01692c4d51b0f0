#include "../lines.hpp"

int main() {
    const std::vector<std::int64_t> levels{12, 15, 11, 11, 20, 4};
    std::vector<std::int64_t> changes(5);
    std::transform(std::execution::par_unseq, levels.begin(), levels.end() - 1, levels.begin() + 1, changes.begin(),
                   [](auto before, auto after) { return after - before; });
    lines::done("transform");
    lines::print("changes", changes);
}
