#include "../lines.hpp"

int main() {
    const std::vector<std::int64_t> payments{40, -25, -160, 10, 50};
    std::vector<std::int64_t> held(5);
    std::inclusive_scan(std::execution::par, payments.begin(), payments.end(), held.begin(), std::plus<>{},
                        std::int64_t{100});
    lines::done("inclusive_scan");
    lines::answer("reduce", std::reduce(std::execution::par, held.begin(), held.end(), std::int64_t{100},
                                        [](auto x, auto y) { return std::min(x, y); }));
    lines::print("held", held);
}
