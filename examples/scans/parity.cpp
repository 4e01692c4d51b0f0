#include "../lines.hpp"

int main() {
    std::vector<std::uint64_t> bits{1, 0, 1, 1, 0, 0, 1};
    std::inclusive_scan(std::execution::par, bits.begin(), bits.end(), bits.begin(), std::bit_xor<>{});
    lines::done("inclusive_scan");
    lines::print("bits", bits);
}
