// Runs a workload as charm_run of this project does, and prints the same text: docs/FORMATS.md, "Workloads" and "What charm_run prints".
//
//     g++ -std=c++17 -O2 workload.cpp $(pkg-config --cflags --libs tezgumi-chares) -pthread -o workload
//     ./workload [--tolerance T] [--dump PREFIX] [--events PREFIX] worked.workload
//     mpicxx -DWITH_MPI -std=c++17 -O2 workload.cpp $(pkg-config --cflags --libs tezgumi-chares) -pthread -o workload_mpi
//     mpirun -n 2 ./workload_mpi worked.workload      # as many ranks as the workload has PEs
#include "launch.hpp"

#include <cinttypes>

// A workload, or the line that is printed where it is none.
struct workload {
    std::uint32_t pes = 0, rounds = 0, pad = 0, chares = 0;
    std::vector<std::vector<std::uint32_t>> amounts;
    std::string faulty;
};

// Reads a text line by line: each is a word and some numbers, which are within a limit.
class reader {
public:
    explicit reader(const std::string &text) : text_(text) {}

    // The numbers of the next line.
    std::vector<std::uint32_t> line(const char *word, std::size_t count, std::uint64_t least, std::uint64_t most)
    {
        std::vector<std::uint32_t> numbers;
        number_++;
        if (!faulty.empty()) return numbers;
        bool good = takes(word), within = true;
        for (std::size_t i = 0; good && i < count; i++) {
            std::uint64_t value = 0;
            good = takes(" ") && takes_number(value);
            within = within && least <= value && value <= most;
            numbers.push_back(static_cast<std::uint32_t>(value));
        }
        good = good && takes("\n");
        if (!good || !within) fail(good);
        numbers.resize(count);
        return numbers;
    }
    void end()
    {
        number_++;
        if (faulty.empty() && at_ != text_.size()) fail(false);
    }
    std::string faulty;

private:
    bool takes(const char *what)
    {
        const std::size_t len = std::strlen(what);
        if (text_.compare(at_, len, what) != 0) return false;
        at_ += len;
        return true;
    }
    // At most ten digits, without a leading zero.
    bool takes_number(std::uint64_t &value)
    {
        const std::size_t start = at_;
        while (at_ < text_.size() && text_[at_] >= '0' && text_[at_] <= '9' && at_ - start < 10) {
            value = 10 * value + static_cast<std::uint64_t>(text_[at_++] - '0');
        }
        return at_ > start && !(text_[start] == '0' && at_ - start > 1);
    }
    void fail(bool limit) { faulty = std::string("workload: ") + (limit ? "limit in line " : "line ") + std::to_string(number_); }

    const std::string &text_;
    std::size_t at_ = 0;
    std::uint32_t number_ = 0;
};

static workload read(const std::string &path)
{
    workload found;
    std::string text;
    std::FILE *file = std::fopen(path.c_str(), "rb");
    char block[65536];
    while (file) {
        const std::size_t count = std::fread(block, 1, sizeof block, file);
        text.append(block, count);
        if (count == 0 || text.size() > 67108864) break;
    }
    if (!file || std::ferror(file)) found.faulty = "workload: read failed";
    if (file) std::fclose(file);
    if (!found.faulty.empty()) return found;
    reader lines(text);
    found.pes = lines.line("pes", 1, 1, 256)[0];
    found.rounds = lines.faulty.empty() ? lines.line("rounds", 1, 0, 1000)[0] : 0;
    found.pad = lines.faulty.empty() ? lines.line("pad", 1, 0, 65536)[0] : 0;
    found.chares = lines.faulty.empty() ? lines.line("chares", 1, 0, 65536)[0] : 0;
    for (std::uint32_t r = 0; r < found.rounds && lines.faulty.empty(); r++) {
        found.amounts.push_back(lines.line("amounts", found.chares, 0, 4294967295u));
    }
    if (lines.faulty.empty()) lines.end();
    found.faulty = text.size() > 67108864 ? "workload: too long" : lines.faulty;
    return found;
}

// In each round a tally sends its amount of that round to the next one. What it gets is its work.
struct tally : tezgumi::chare {
    using messages = tezgumi::messages<std::uint32_t>;

    std::uint32_t sent = 0, got = 0;
    std::uint64_t sum = 0;
    std::vector<std::uint32_t> amounts;
    std::vector<std::uint8_t> pad;

    void pup(pup::er &p) { p(sent, got, sum, amounts, pad); }

    void resume(tezgumi::round, tezgumi::array<tally> &all)
    {
        work(0);
        if (sent == amounts.size()) return finish();
        all[(all.me() + 1) % all.size()].send(amounts[sent++]);
        if (got >= sent) at_sync();
    }
    void receive(std::uint32_t amount)
    {
        work(amount);
        got++;
        sum += amount;
        if (got == sent) at_sync();
    }
};

// Prints what a run of so many chares left. Its status.
static int print(const launch::program &program, const launch::outcome<tally> &end, std::uint32_t chares)
{
    const auto sums = end.collect([](const tally &one) { return one.sum; });
    if (!program.prints()) return end.status();
    for (const tezgumi::round_report &of : end.rounds) {
        std::printf("round %u bottleneck %" PRIu64 " moved %" PRIu64 "\n", of.round, of.bottleneck, of.moved);
    }
    // Where a dump was not written the sums are there. Where the events could not be opened there are no elements of that PE.
    if (end.is_good() || (end.met.kind == tezgumi::fault_kind::dump && sums.size() == chares)) {
        std::printf("sums");
        for (std::uint64_t sum : sums) std::printf(" %" PRIu64, sum);
    } else {
        std::printf("fault %s", end.met.word());
    }
    if (!end.is_good()) std::fprintf(stderr, "workload: %s\n", end.met.text().c_str());
    std::printf("\nposted %" PRIu64 " executed %" PRIu64 " held %" PRIu64 "\n", end.letters.posted, end.letters.executed, end.letters.held);
    return end.status();
}

int main(int argc, char **argv)
{
    launch::program program(argc, argv);
    launch::words words(argc, argv);
    tezgumi::settings how;
    how.clock = tezgumi::clock_kind::none;
    how.within = words.has("--tolerance");
    how.tolerance = words.number("--tolerance", 0, 0, 1000);
    how.dumps = words.text("--dump");
    how.events = words.text("--events");
    launch::delays(words, how);
    launch::bounds(words, how);
    if (!words.is_good() || words.rest().size() != 1) {
        if (program.prints()) std::fputs("workload [--tolerance T] [--dump PREFIX] [--events PREFIX] FILE\n", stderr);
        return 2;
    }
    const workload of = read(words.rest()[0]);
    if (!of.faulty.empty()) {
        if (program.prints()) std::printf("%s\n", of.faulty.c_str());
        return 3;
    }
    how.pes = of.pes;
    if (program.pes(of.pes) != of.pes) {
        if (program.prints()) std::fprintf(stderr, "workload: it is for %u PEs: start so many ranks\n", of.pes);
        return 2;
    }
    const auto end = launch::run<tally>(how, of.chares, [&of](std::uint32_t i) {
        tally one;
        for (const auto &row : of.amounts) one.amounts.push_back(row[i]);
        one.pad.resize(of.pad);
        return one;
    });
    return print(program, end, of.chares);
}
