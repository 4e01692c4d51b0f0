#include "../lines.hpp"

int main() {
    const std::vector<std::uint64_t> marks{12, 3, 25, 18, 9, 27, 14, 3, 30, 21};
    std::vector<std::uint64_t> bins(3);
    for (const auto mark : marks) ++bins[mark < 10 ? 0 : mark < 20 ? 1 : 2];
    lines::done("for_loop");
    lines::print("bins", bins);
}
