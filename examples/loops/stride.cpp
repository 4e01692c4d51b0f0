#include "../lines.hpp"

int main() {
    std::vector<std::uint64_t> a(8);
    for (int i = 1; i < 8; i += 2) a[i] = 1;
    lines::done("for_loop");
    lines::print("a", a);
}
