#include "../lines.hpp"

int main() {
    const std::vector<std::int64_t> a{2, 3, 4};
    const auto part = [](auto x) { return lines::divide(12, x - 3); };
    for (const auto begin : {a.end() - 1, a.begin()})
        lines::answer("transform_reduce",
                      std::transform_reduce(std::execution::par, begin, a.end(), std::int64_t{0}, lines::add, part));
}
