#include "../lines.hpp"

int main() {
    const std::vector<std::int64_t> a{1, 2, 3, 4};
    lines::answer("reduce", std::reduce(std::execution::par, a.begin(), a.end(), std::int64_t{10}, std::minus<>{}));
}
