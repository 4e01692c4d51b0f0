#include "../lines.hpp"

int main() {
    const std::vector<std::uint64_t> a{12, 10, 14, 9};
    lines::answer("reduce", std::reduce(std::execution::par, a.begin(), a.end(), ~std::uint64_t{0}, std::bit_and<>{}));
    lines::answer("reduce", std::reduce(std::execution::par, a.begin(), a.end(), std::uint64_t{0}, std::bit_or<>{}));
    lines::answer("reduce", std::reduce(std::execution::par, a.begin(), a.end(), std::uint64_t{0}, std::bit_xor<>{}));
}
