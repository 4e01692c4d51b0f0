#include "../lines.hpp"

int main() {
    std::vector<std::uint64_t> a{1, 2, 3};
    const auto always = [](auto) { return true; };
    std::for_each(std::execution::par, a.end(), a.end(), [](auto&) { throw 7; });
    lines::done("for_each");
    lines::position("find_if", a.begin(), a.begin(), std::find_if(std::execution::par, a.begin(), a.begin(), always));
    lines::answer("count_if", std::count_if(std::execution::par, a.begin() + 1, a.begin() + 1, always));
    lines::print("a", a);
}
