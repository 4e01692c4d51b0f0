#include "../lines.hpp"

int main() {
    using kind = std::numeric_limits<std::int64_t>;
    const std::vector<std::int64_t> a{3, -8, 12, -8, 0};
    lines::answer("reduce", std::reduce(std::execution::par, a.begin(), a.end(), kind::max(),
                                        [](auto x, auto y) { return std::min(x, y); }));
    lines::answer("reduce", std::reduce(std::execution::par, a.begin(), a.end(), kind::min(),
                                        [](auto x, auto y) { return std::max(x, y); }));
}
