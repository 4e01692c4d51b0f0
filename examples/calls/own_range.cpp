#include "../lines.hpp"

int main() {
    std::vector<std::uint64_t> a{4, 0, 0, 6, 0};
    const auto free = [](auto x) { return x == 0; };
    a[0] = std::count_if(std::execution::par, a.begin(), a.end(), free);
    lines::answer("count_if", a[0]);
    a[1] = std::find_if(std::execution::par, a.begin(), a.end(), free) - a.begin();
    lines::answer("find_if", a[1]);
    lines::print("a", a);
}
