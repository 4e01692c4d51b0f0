#include "../lines.hpp"

int main() {
    const std::vector<std::int64_t> week{4, 1, 0, -2, -5, 3, -1};
    std::vector<std::uint64_t> places(1);
    const auto frost = [](auto x) { return x < 0; };
    const auto heat = [](auto x) { return 30 < x; };
    lines::position("find_if", week.begin(), week.end(),
                    std::find_if(std::execution::par, week.begin(), week.end(), frost));
    lines::position("find_if", week.begin() + 4, week.end(),
                    std::find_if(std::execution::par, week.begin() + 4, week.end(), frost));
    const auto found = std::find_if(std::execution::par, week.begin(), week.end(), heat);
    places[0] = found - week.begin();
    lines::position("find_if", week.begin(), week.end(), found);
    lines::print("places", places);
}
