#include "../lines.hpp"

// std::execution::unseq is in C++20; par_unseq allows what it does.
int main() {
    const std::vector<bool> answers{true, false, true, true, false, true};
    const auto right = [](bool x) { return x; };
    std::vector<std::uint64_t> counts(2);
    counts[0] = std::count_if(std::execution::par_unseq, answers.begin(), answers.end(), right);
    lines::answer("count_if", counts[0]);
    counts[1] = std::count_if(std::execution::seq, answers.begin() + 3, answers.end(), right);
    lines::answer("count_if", counts[1]);
    lines::print("counts", counts);
}
