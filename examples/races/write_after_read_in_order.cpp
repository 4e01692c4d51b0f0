#include "../lines.hpp"

int main() {
    std::vector<std::uint64_t> a{1, 2, 3, 4, 5};
    for (int i = 0; i < 4; ++i) a[i] = a[i + 1];
    lines::done("for_loop");
    lines::print("a", a);
}
