#include "../lines.hpp"

int main() {
    std::array<bool, 5> a{true, true, false, true, true};
    std::inclusive_scan(std::execution::par, a.begin(), a.end(), a.begin(), std::logical_and<>{});
    lines::done("inclusive_scan");
    lines::answer("count_if", std::count(std::execution::par, a.begin(), a.end(), true));
    lines::print("a", a);
}
