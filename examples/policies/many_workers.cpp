#include "../lines.hpp"

int main() {
    const std::vector<std::int64_t> a{40, -7, 12, 0, -60, 3};
    std::vector<std::int64_t> b(6);
    lines::answer("reduce", std::reduce(std::execution::par, a.begin(), a.end(), std::int64_t{5}, lines::add));
    std::inclusive_scan(std::execution::par, a.begin(), a.end(), b.begin(), lines::add);
    lines::done("inclusive_scan");
    lines::print("b", b);
}
