#include "../lines.hpp"

// std::execution::unseq is in C++20; par_unseq allows what it does.
int main() {
    const std::vector<std::int64_t> p{3, -1}, q{-1, 2};
    lines::answer("transform_reduce",
                  std::transform_reduce(std::execution::par, p.begin(), p.end(), q.begin(), std::int64_t{0}, std::plus<>{},
                                        [](auto x, auto y) { return (x - y) * (x - y); }));
    lines::answer("transform_reduce",
                  std::transform_reduce(std::execution::par_unseq, q.begin(), q.end(), std::int64_t{0}, std::plus<>{},
                                        [](auto x) { return x < 0 ? 0 : x; }));
}
