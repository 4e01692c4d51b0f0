#include "lines.hpp"

int main() {
    const std::vector<std::uint64_t> a{1, 2, 3};
    lines::answer("reduce", std::reduce(std::execution::seq, a.begin(), a.end(), std::uint64_t{0}, std::plus<>{}));
}
