#include "../lines.hpp"

// The loop that seq stands for here.
int main() {
    std::vector<std::uint64_t> a{7, 1, 2, 3, 4};
    for (std::size_t i = 0; i < 4; ++i) a[i + 1] = a[i];
    lines::done("transform");
    lines::print("a", a);
}
