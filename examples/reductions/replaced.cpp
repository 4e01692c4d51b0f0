#include "../lines.hpp"

int main() {
    std::vector<std::uint64_t> a{1, 2, 3, 4};
    for (int turn = 0; turn < 2; ++turn) {
        a[3] = std::reduce(std::execution::par, a.begin(), a.end(), std::uint64_t{0});
        lines::answer("reduce", a[3]);
    }
    lines::print("a", a);
}
