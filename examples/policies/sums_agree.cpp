#include "../lines.hpp"

// C++17 has three of the five policies; par_unseq allows what the other two do.
int main() {
    const std::vector<std::uint64_t> a{9223372036854775808u, 5, 9223372036854775808u, 20, 7};
    lines::answer("reduce", std::reduce(std::execution::seq, a.begin(), a.end(), std::uint64_t{0}));
    lines::answer("reduce", std::reduce(std::execution::par, a.begin(), a.end(), std::uint64_t{0}));
    for (int policy = 3; policy <= 5; ++policy)
        lines::answer("reduce", std::reduce(std::execution::par_unseq, a.begin(), a.end(), std::uint64_t{0}));
}
