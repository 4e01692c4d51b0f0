#include "../lines.hpp"

// Without a policy: under `par` libstdc++ 12 leaves zeros where source and result are one, which the standard permits them to be.
int main() {
    std::vector<std::uint64_t> a{3, 0, 4, 1, 2};
    std::exclusive_scan(a.begin(), a.end(), a.begin(), std::uint64_t{0});
    lines::done("exclusive_scan");
    lines::print("a", a);
}
