#include "../lines.hpp"

int main() {
    std::vector<std::uint64_t> a(5), moved(5);
    std::iota(a.begin(), a.end(), 1);
    std::copy(std::execution::par, a.begin(), a.end() - 1, moved.begin() + 1);
    lines::done("transform");
    std::copy(std::execution::par, moved.begin() + 1, moved.end(), a.begin() + 1);
    lines::done("transform");
    lines::print("a", a);
}
