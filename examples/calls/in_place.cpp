#include "../lines.hpp"

int main() {
    std::vector<std::int64_t> a{3, -1, 4, -5};
    std::transform(std::execution::par_unseq, a.begin(), a.end(), a.begin(), [](auto x) { return x * x; });
    lines::done("transform");
    lines::print("a", a);
}
