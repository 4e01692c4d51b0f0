#include "../lines.hpp"

int main() {
    std::vector<std::int64_t> a{std::numeric_limits<std::int64_t>::min()};
    lines::answer("transform_reduce", std::transform_reduce(std::execution::seq, a.begin(), a.end(), std::int64_t{0},
                                                            lines::add, [](auto x) { return x / 2; }));
    std::for_each(std::execution::seq, a.begin(), a.end(), [](auto& x) { x = lines::subtract(0, x); });
    lines::done("for_each");
    lines::print("a", a);
}
