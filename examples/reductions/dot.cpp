#include "../lines.hpp"

int main() {
    const std::vector<std::int64_t> a{1, 2, 3}, b{4, -5, 6};
    lines::answer("transform_reduce",
                  std::transform_reduce(std::execution::par, a.begin(), a.end(), b.begin(), std::int64_t{0}));
}
