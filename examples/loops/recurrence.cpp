#include "../lines.hpp"

int main() {
    std::vector<std::uint64_t> f{1, 1, 0, 0, 0, 0, 0, 0};
    for (int i = 0; i < 6; ++i) f[i + 2] = f[i] + f[i + 1];
    lines::done("for_loop");
    lines::print("f", f);
}
