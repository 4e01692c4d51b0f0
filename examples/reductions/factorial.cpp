#include "../lines.hpp"

int main() {
    std::vector<std::uint64_t> n(21);
    std::iota(n.begin(), n.end(), 1);
    for (const auto end : {n.end() - 1, n.end()})
        lines::answer("reduce", std::reduce(std::execution::par, n.begin(), end, std::uint64_t{1}, std::multiplies<>{}));
}
