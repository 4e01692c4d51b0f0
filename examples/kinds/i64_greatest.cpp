#include "../lines.hpp"

int main() {
    std::vector<std::int64_t> a{std::numeric_limits<std::int64_t>::max()};
    lines::answer("transform_reduce",
                  std::transform_reduce(std::execution::seq, a.begin(), a.end(), std::uint64_t{0}, std::plus<>{},
                                        [](auto x) { return static_cast<std::uint64_t>(x) + 1; }));
    std::for_each(std::execution::seq, a.begin(), a.end(), [](auto& x) { x = lines::add(x, 1); });
    lines::done("for_each");
    lines::print("a", a);
}
