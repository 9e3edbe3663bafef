// A yardstick for charm_run: runs a workload by the C++ Actor Framework (libcaf-dev), an actor for each chare, on as many
// threads of its scheduler as there are PEs. The letters, the sums and the rounds are those of charm_run. Nothing is balanced,
// packed or kept in a journal: the framework places actors itself, and a round ends when the last element has reported.
//
//     actors stealing|sharing FILE
//
// The word is the policy by which the scheduler places actors.
#include <atomic>
#include <caf/all.hpp>
#include <cstdint>
#include <fstream>
#include <iostream>
#include <optional>
#include <sstream>
#include <string>
#include <vector>

namespace {

using resume_atom = caf::atom_constant<caf::atom("resume")>;

/// What runs: of each round the amounts, one for each chare.
struct Workload {
    std::size_t pes = 0;
    std::size_t chares = 0;
    std::vector<std::vector<std::uint32_t>> rounds;
};

/// What actors share: all elements, and how many have reported in this round.
struct Shared {
    explicit Shared(const Workload &given) : workload(given), sums(given.chares) {}

    const Workload &workload;
    std::vector<caf::actor> elements;
    std::vector<std::uint64_t> sums;
    std::atomic<std::size_t> reported{0};
    std::atomic<std::uint64_t> posted{0};
    std::atomic<std::uint64_t> executed{0};
};

/// A chare that sends an amount to its neighbor in each round, and adds up what comes.
class Element : public caf::event_based_actor {
public:
    Element(caf::actor_config &config, Shared &all, std::size_t own) : caf::event_based_actor(config), shared(all), index(own) {}

    caf::behavior make_behavior() override {
        return {
            [this](std::uint32_t units) {
                got += 1;
                sum += units;
                if (got == posted) {
                    report();
                }
            },
            [this](resume_atom) { resume(); },
        };
    }

private:
    /// Begins the next round, or has finished.
    void resume() {
        if (posted == shared.workload.rounds.size()) {
            shared.sums[index] = sum;
            shared.posted += posted;
            shared.executed += got;
            quit();
            return;
        }
        send(shared.elements[(index + 1) % shared.elements.size()], shared.workload.rounds[posted][index]);
        posted += 1;
        if (got >= posted) {
            report();
        }
    }

    /// The last one that reports begins the next round for all.
    void report() {
        if (shared.reported.fetch_add(1) + 1 == shared.elements.size()) {
            shared.reported = 0;
            for (const caf::actor &element : shared.elements) {
                send(element, resume_atom::value);
            }
        }
    }

    Shared &shared;
    std::size_t index;
    std::size_t posted = 0;
    std::size_t got = 0;
    std::uint64_t sum = 0;
};

std::optional<Workload> parse(std::istream &text) {
    Workload workload;
    std::size_t rounds = 0;
    std::size_t pad = 0;
    std::string words[4];
    if (!(text >> words[0] >> workload.pes >> words[1] >> rounds >> words[2] >> pad >> words[3] >> workload.chares)) {
        return std::nullopt;
    }
    if (words[0] != "pes" || words[1] != "rounds" || words[2] != "pad" || words[3] != "chares") {
        return std::nullopt;
    }
    for (std::size_t round = 0; round < rounds; ++round) {
        std::string word;
        std::vector<std::uint32_t> row(workload.chares);
        if (!(text >> word) || word != "amounts") {
            return std::nullopt;
        }
        for (std::uint32_t &amount : row) {
            if (!(text >> amount)) {
                return std::nullopt;
            }
        }
        workload.rounds.push_back(std::move(row));
    }
    return workload;
}

void run(caf::actor_system_config &config, Shared &shared) {
    caf::actor_system system{config};
    for (std::size_t index = 0; index < shared.workload.chares; ++index) {
        shared.elements.push_back(system.spawn<Element>(std::ref(shared), index));
    }
    // Those who begin send to others, so all are there before the first one begins.
    for (const caf::actor &element : shared.elements) {
        caf::anon_send(element, resume_atom::value);
    }
    system.await_all_actors_done();
    shared.elements.clear();
}

void print(const Shared &shared) {
    std::ostringstream text;
    text << "sums";
    for (std::uint64_t sum : shared.sums) {
        text << ' ' << sum;
    }
    text << "\nposted " << shared.posted << " executed " << shared.executed << " held " << shared.posted - shared.executed << '\n';
    std::cout << text.str() << std::flush;
}

} // namespace

int main(int count, char **words) {
    const std::string policy = count == 3 ? words[1] : "";
    if (policy != "stealing" && policy != "sharing") {
        std::cerr << "usage: actors stealing|sharing FILE\n";
        return 2;
    }
    std::ifstream file(words[2]);
    const std::optional<Workload> workload = parse(file);
    if (!workload) {
        std::cerr << "actors: " << words[2] << ": no workload\n";
        return 3;
    }
    caf::actor_system_config config;
    config.set("scheduler.policy", policy == "sharing" ? caf::atom("sharing") : caf::atom("stealing"));
    config.set("scheduler.max-threads", workload->pes);
    Shared shared{*workload};
    run(config, shared);
    print(shared);
    return std::cout ? 0 : 1;
}
