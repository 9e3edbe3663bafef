// A million elements on 1,024 PEs, from C++: their loads drift for some steps, and each step is decided and checked.
#include <chrono>
#include <cstdint>
#include <cstdio>
#include <numeric>
#include <vector>
#include <tezgumi.h>

namespace {

// A decision that gives its room back by itself.
class Decision {
public:
    Decision(std::uint32_t elements, std::uint32_t pes) : status_(tezgumi_decision_room(&decision_, elements, pes)) {}
    ~Decision() { tezgumi_decision_free(&decision_); }
    Decision(const Decision &) = delete;
    Decision &operator=(const Decision &) = delete;

    std::int32_t decide(const tezgumi_run &run) { return status_ ? status_ : tezgumi_decide_run(&run, &decision_); }
    std::int32_t check(const tezgumi_run &run) const { return status_ ? status_ : tezgumi_check_run(&run, &decision_); }
    const tezgumi_decision &lists() const { return decision_; }

private:
    tezgumi_decision decision_;
    std::int32_t status_;
};

double milliseconds(std::chrono::steady_clock::time_point from)
{
    return std::chrono::duration<double, std::milli>(std::chrono::steady_clock::now() - from).count();
}

} // namespace

int main()
{
    const std::uint32_t n = 1000000, pes = 1024;
    std::vector<std::uint64_t> loads(n);
    std::vector<std::uint32_t> bytes(n, 4096), places(n);
    for (std::uint32_t i = 0; i < n; i++) places[i] = static_cast<std::uint32_t>(std::uint64_t{i} * pes / n);
    Decision decision(n, pes);
    for (std::uint32_t step = 0; step < 3; step++) {
        for (std::uint32_t i = 0; i < n; i++) loads[i] = 1000 + (i + step * 8192) % n / 16;
        const tezgumi_run run{n, pes, loads.data(), bytes.data(), places.data()};
        const auto begin = std::chrono::steady_clock::now();
        std::int32_t status = decision.decide(run);
        const double decided = milliseconds(begin);
        if (status == TEZGUMI_OK) status = decision.check(run);
        const double checked = milliseconds(begin) - decided;
        if (status != TEZGUMI_OK) {
            std::fprintf(stderr, "step %u: %s\n", step, tezgumi_status_name(status));
            return 1;
        }
        const tezgumi_decision &lists = decision.lists();
        const double average = static_cast<double>(std::accumulate(loads.begin(), loads.end(), std::uint64_t{0})) / pes;
        std::printf("step %u: heaviest PE %.4f of the average, %llu bytes moved, decided in %.1f ms, checked in %.1f ms\n",
            step, static_cast<double>(lists.bottleneck) / average, static_cast<unsigned long long>(lists.moved), decided,
            checked);
        places.assign(lists.new_places, lists.new_places + n);
    }
    return 0;
}
