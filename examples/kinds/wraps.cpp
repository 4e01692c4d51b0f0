#include "../lines.hpp"

int main() {
    const std::vector<std::uint64_t> top{18446744073709551615u, 1}, halves{9223372036854775808u, 42, 9223372036854775808u};
    const auto sum = [](auto begin, auto end, std::uint64_t init) {
        lines::answer("reduce", std::reduce(std::execution::seq, begin, end, init));
    };
    sum(top.begin(), top.begin() + 1, 1);
    sum(top.begin(), top.end(), 5);
    sum(top.begin(), top.begin() + 1, 18446744073709551615u);
    sum(halves.begin(), halves.end(), 0);
    lines::print("top", top);
}
