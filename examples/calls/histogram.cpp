#include "../lines.hpp"

int main() {
    const std::vector<std::uint64_t> marks{12, 3, 25, 18, 9, 27, 14, 3, 30, 21};
    std::vector<std::uint64_t> bins(3);
    for (std::uint64_t bin = 0; bin < 3; ++bin) {
        bins[bin] = std::count_if(std::execution::par, marks.begin(), marks.end(),
                                  [bin](auto x) { return std::min<std::uint64_t>(x / 10, 2) == bin; });
        lines::answer("count_if", bins[bin]);
    }
    lines::print("bins", bins);
}
