#include "../lines.hpp"

// Only under seq: the other policies may call the predicate behind the first match, where it throws.
int main() {
    const std::vector<std::uint64_t> a{10, 4, 0, 5};
    const auto large = [](auto x) { return lines::divide(100, x) > 20; };
    lines::position("find_if", a.begin(), a.end(), std::find_if(std::execution::seq, a.begin(), a.end(), large));
    lines::position("find_if", a.begin() + 2, a.end(), std::find_if(std::execution::seq, a.begin() + 2, a.end(), large));
}
