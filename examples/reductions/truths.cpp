#include "../lines.hpp"

int main() {
    const std::vector<bool> a{true, true, false, true};
    lines::answer("reduce", std::reduce(std::execution::par, a.begin(), a.end(), true, std::logical_and<>{}));
    lines::answer("reduce", std::reduce(std::execution::par, a.begin(), a.end(), false, std::logical_or<>{}));
}
