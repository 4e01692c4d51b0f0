#include "../lines.hpp"

// C++17 has no unseq; par_unseq allows what it does.
int main() {
    const std::vector<std::uint64_t> a{1, 2};
    const auto odd = [](auto x) { return x == 2 ? throw 5 : true; };
    lines::answer("count_if", std::count_if(std::execution::par_unseq, a.begin(), a.begin() + 1, odd));
    lines::answer("count_if", std::count_if(std::execution::par_unseq, a.begin(), a.end(), odd));
}
