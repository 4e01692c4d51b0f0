#include "../lines.hpp"

int main() {
    const std::vector<std::uint64_t> lengths{3, 0, 4, 1, 2};
    std::vector<std::uint64_t> starts(5);
    std::exclusive_scan(std::execution::par, lengths.begin(), lengths.end(), starts.begin(), std::uint64_t{0});
    lines::done("exclusive_scan");
    lines::print("starts", starts);
}
