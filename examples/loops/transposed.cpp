#include "../lines.hpp"

int main() {
    const std::vector<std::uint64_t> m{1, 2, 3, 4, 5, 6};
    std::vector<std::uint64_t> t(6);
    const auto columns = lines::indices(3);
    std::for_each(std::execution::par, columns.begin(), columns.end(), [&](auto column) {
        t[2 * column] = m[column];
        t[2 * column + 1] = m[column + 3];
    });
    lines::done("for_loop");
    lines::print("t", t);
}
