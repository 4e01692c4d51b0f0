#include "../lines.hpp"

int main() {
    const std::vector<std::int64_t> a{std::numeric_limits<std::int64_t>::max(), -1};
    lines::answer("reduce", std::reduce(std::execution::par, a.begin(), a.end(), std::int64_t{1}, lines::add));
    lines::answer("reduce", std::reduce(std::execution::seq, a.begin(), a.end(), std::int64_t{1}, lines::add));
    lines::print("a", a);
}
