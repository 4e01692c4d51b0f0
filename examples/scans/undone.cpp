#include "../lines.hpp"

int main() {
    const std::vector<std::int64_t> a{5, 1, 4, 2};
    std::vector<std::int64_t> sums(4), again(3);
    std::inclusive_scan(std::execution::par, a.begin(), a.end(), sums.begin());
    lines::done("inclusive_scan");
    std::transform(std::execution::par, sums.begin() + 1, sums.end(), sums.begin(), again.begin(), std::minus<>{});
    lines::done("transform");
    lines::print("sums", sums);
    lines::print("again", again);
}
