#include "../lines.hpp"

int main() {
    std::vector<std::uint64_t> a(5);
    std::iota(a.begin(), a.end(), 1);
    std::move(a.begin() + 1, a.end(), a.begin());
    lines::done("transform");
    lines::print("a", a);
}
