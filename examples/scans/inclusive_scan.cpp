#include "../lines.hpp"

int main() {
    std::vector<std::int64_t> payments{40, -25, -60, 10, 5};
    std::inclusive_scan(std::execution::par, payments.begin(), payments.end(), payments.begin(), std::plus<>{},
                        std::int64_t{100});
    lines::done("inclusive_scan");
    lines::print("payments", payments);
}
