#include "../lines.hpp"

// The loop that seq stands for here: C++ takes no result that lies over its source in another way than cell for cell.
int main() {
    std::vector<std::uint64_t> a(5, 1);
    for (std::uint64_t i = 0, sum = 0; i < 4; ++i) a[i + 1] = sum += a[i];
    lines::done("inclusive_scan");
    lines::print("a", a);
}
