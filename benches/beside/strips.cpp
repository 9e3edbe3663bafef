// A yardstick for hot_spot --static --work 0: the same chain of strips by the C++ Actor Framework (libcaf-dev), an actor for each
// strip, on as many threads of its scheduler as there are PEs. The letters and the checksum are those of hot_spot. Nothing is
// balanced or packed.
//
//     strips stealing|sharing ELEMENTS PES ROUNDS
//
// The word is the policy by which the scheduler places actors.
#include <array>
#include <caf/all.hpp>
#include <cstdint>
#include <iomanip>
#include <iostream>
#include <optional>
#include <string>
#include <vector>

namespace {

using go_atom = caf::atom_constant<caf::atom("go")>;
using left_atom = caf::atom_constant<caf::atom("left")>;
using right_atom = caf::atom_constant<caf::atom("right")>;

constexpr std::size_t cells_of_a_strip = 16;

std::uint64_t mix(std::uint64_t x) {
    const std::uint64_t a = x + 0x9e3779b97f4a7c15;
    const std::uint64_t b = (a ^ (a >> 30)) * 0xbf58476d1ce4e5b9;
    const std::uint64_t c = (b ^ (b >> 27)) * 0x94d049bb133111eb;
    return c ^ (c >> 31);
}

using Cells = std::array<std::uint64_t, cells_of_a_strip>;

/// What actors share: all strips, and the cells of each once it has finished.
struct Shared {
    std::uint32_t rounds = 0;
    std::vector<caf::actor> strips;
    std::vector<Cells> cells;
};

/// A value that a neighbor shows for a round.
struct Slot {
    std::optional<std::uint64_t> now;
    std::optional<std::uint64_t> early;

    void keep(std::uint32_t done, std::uint32_t round, std::uint64_t value) {
        (round == done ? now : early) = value;
    }

    void move_up() {
        now = early;
        early.reset();
    }
};

/// A strip of cells. In each round it shows its neighbors the values at its ends, and computes once it has theirs.
class Strip : public caf::event_based_actor {
public:
    Strip(caf::actor_config &config, Shared &all, std::size_t own) : caf::event_based_actor(config), shared(all), index(own) {
        for (std::size_t k = 0; k < cells.size(); ++k) {
            cells[k] = mix(index * cells.size() + k);
        }
    }

    caf::behavior make_behavior() override {
        return {
            [this](go_atom) { begin(); },
            [this](left_atom, std::uint32_t round, std::uint64_t value) { take(left, round, value); },
            [this](right_atom, std::uint32_t round, std::uint64_t value) { take(right, round, value); },
        };
    }

private:
    bool has_left() const { return index > 0; }
    bool has_right() const { return index + 1 < shared.strips.size(); }

    void begin() {
        if (has_left()) {
            send(shared.strips[index - 1], right_atom::value, done, cells.front());
        }
        if (has_right()) {
            send(shared.strips[index + 1], left_atom::value, done, cells.back());
        }
        begun = done + 1;
        go_on();
    }

    void take(Slot &slot, std::uint32_t round, std::uint64_t value) {
        slot.keep(done, round, value);
        if (begun > done) {
            go_on();
        }
    }

    /// Computes the round once both values are there.
    void go_on() {
        if ((has_left() && !left.now) || (has_right() && !right.now)) {
            return;
        }
        compute(left.now.value_or(0), right.now.value_or(0));
        left.move_up();
        right.move_up();
        done += 1;
        if (done < shared.rounds) {
            send(this, go_atom::value);
        } else {
            shared.cells[index] = cells;
            quit();
        }
    }

    void compute(std::uint64_t before, std::uint64_t after) {
        for (std::size_t k = 0; k < cells.size(); ++k) {
            const std::uint64_t cell = cells[k];
            const std::uint64_t next = k + 1 < cells.size() ? cells[k + 1] : after;
            cells[k] = mix(cell ^ before ^ (next >> 1));
            before = cell;
        }
    }

    Shared &shared;
    std::size_t index;
    std::uint32_t done = 0;
    std::uint32_t begun = 0;
    Slot left;
    Slot right;
    Cells cells{};
};

void run(caf::actor_system_config &config, Shared &shared) {
    caf::actor_system system{config};
    for (std::size_t index = 0; index < shared.cells.size(); ++index) {
        shared.strips.push_back(system.spawn<Strip>(std::ref(shared), index));
    }
    // Those who begin send to others, so all are there before the first one begins.
    for (const caf::actor &strip : shared.strips) {
        caf::anon_send(strip, go_atom::value);
    }
    system.await_all_actors_done();
    shared.strips.clear();
}

std::uint64_t checksum(const Shared &shared) {
    std::uint64_t sum = 0;
    for (const Cells &cells : shared.cells) {
        for (std::uint64_t cell : cells) {
            sum = mix(sum ^ cell);
        }
    }
    return sum;
}

} // namespace

int main(int count, char **words) {
    const std::string policy = count == 5 ? words[1] : "";
    if (policy != "stealing" && policy != "sharing") {
        std::cerr << "usage: strips stealing|sharing ELEMENTS PES ROUNDS\n";
        return 2;
    }
    caf::actor_system_config config;
    config.set("scheduler.policy", policy == "sharing" ? caf::atom("sharing") : caf::atom("stealing"));
    config.set("scheduler.max-threads", std::stoul(words[3]));
    Shared shared;
    shared.rounds = static_cast<std::uint32_t>(std::stoul(words[4]));
    shared.cells.resize(std::stoul(words[2]));
    run(config, shared);
    std::cout << "checksum " << std::hex << std::setfill('0') << std::setw(16) << checksum(shared) << '\n';
    return std::cout ? 0 : 1;
}
