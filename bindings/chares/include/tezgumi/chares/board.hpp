// The board of a run: who has reported for a round, and the decision of a round. See tezgumi/chares.hpp.
//
// Who has reported for a round that is balanced, what is decided, and who has finished: that is the proved board of tezgumi_board.h. Here are
// the contributions, and rounds that are not balanced, in which nothing is decided.
#ifndef TEZGUMI_CHARES_BOARD_HPP
#define TEZGUMI_CHARES_BOARD_HPP

#include "words.hpp"

#include <tezgumi_board.h>

#include <algorithm>
#include <cstdio>
#include <map>
#include <new>

namespace tezgumi {
namespace detail {

// An element keeps marks of its rounds, and takes them along. From this round on they would make its message too long, so nothing moves
// any more.
inline constexpr std::uint32_t last_balanced_round = 20000;

// The handle of a board, which is not copied. It keeps all rounds that it has decided, so it is opened anew after some of them.
class board_handle {
public:
    board_handle(const settings &how, std::uint32_t pes, std::uint32_t n) : how_(how), pes_(pes), n_(n) { open(); }
    ~board_handle() { tezgumi_board_close(&board_); }
    board_handle(const board_handle &) = delete;
    board_handle &operator=(const board_handle &) = delete;

    static void must(std::int32_t status, const char *call, std::uint32_t element = fault::no_element)
    {
        if (status == TEZGUMI_BOARD_OK) return;
        if (status == TEZGUMI_BOARD_NO_MEMORY) throw std::bad_alloc();
        const fault_kind kind = status == TEZGUMI_BOARD_WORN ? fault_kind::worn : fault_kind::mismatch;
        throw run_fault(kind, std::string(call) + " answered " + std::to_string(status), element);
    }

    // An element waits for the end of the board's round. The board weighs no element by more than its limit.
    void report(const note &of)
    {
        const std::uint64_t bytes = std::min<std::uint64_t>(of.bytes, TEZGUMI_BOARD_STATE_BYTES);
        must(tezgumi_board_report(&board_, of.index, round_, of.load, static_cast<std::uint32_t>(bytes), of.pe), "tezgumi_board_report", of.index);
    }
    void finish(std::uint32_t index) { must(tezgumi_board_finish(&board_, index), "tezgumi_board_finish", index); }
    bool is_complete() { return tezgumi_board_is_complete(&board_) == 1; }
    bool all_finished() { return tezgumi_board_all_finished(&board_) == 1; }

    // Decides the round for which all have reported.
    void decide(decision &next, round_report &report)
    {
        must(tezgumi_board_decide(&board_, &round_), "tezgumi_board_decide");
        must(tezgumi_board_decision(
                 &board_, round_, next.cuts.data(), next.cuts.size(), next.names.data(), next.names.size(), &report.bottleneck, &report.moved),
            "tezgumi_board_decision");
    }
    // The dump of the round that was decided last.
    pup::bytes dump()
    {
        std::size_t len = 0;
        std::int32_t status = tezgumi_board_dump(&board_, round_, &nothing_, 0, &len);
        pup::bytes text(len);
        if (status == TEZGUMI_BOARD_LONGER) status = tezgumi_board_dump(&board_, round_, text.data(), text.size(), &len);
        must(status, "tezgumi_board_dump");
        return text;
    }
    // Goes on to the next round. Whether the board was opened anew, and has to be told who has finished.
    bool go_on()
    {
        if (round_++ < rounds_kept) return false;
        must(tezgumi_board_close(&board_), "tezgumi_board_close");
        open();
        return true;
    }

private:
    void open()
    {
        round_ = 1;
        const std::int32_t status =
            how_.within ? tezgumi_board_open_within(&board_, n_, pes_, how_.tolerance) : tezgumi_board_open(&board_, n_, pes_);
        must(status, "tezgumi_board_open");
    }
    static constexpr std::uint32_t rounds_kept = 64;
    const settings how_;
    const std::uint32_t pes_, n_;
    tezgumi_board board_ = {nullptr, false};
    std::uint32_t round_ = 1;
    std::uint8_t nothing_ = 0;
};

class board {
public:
    board(const settings &how, std::uint32_t pes, std::uint32_t n)
        : how_(how), pes_(pes), n_(n), handle_(how, pes, n), loads_(n), places_(n), reported_(n), finished_(n), given_(n), bytes_(n)
    {
        present_.cuts.resize(pes + 1);
        present_.names.resize(pes);
        for (std::uint32_t b = 0; b < pes; b++) present_.names[b] = b;
        // Element i begins on PE i * pes / n, rounded down, so block b begins at b * n / pes, rounded up.
        for (std::uint64_t b = 0; b <= pes; b++) present_.cuts[b] = static_cast<std::uint32_t>((b * n + pes - 1) / pes);
    }

    // Takes a note, and what was contributed by it: the first of an element in the round that is under way, or that it has finished.
    void take(note &of)
    {
        if (of.index >= n_ || of.pe >= pes_) throw run_fault(fault_kind::mismatch, "a note of no element or no PE");
        if (of.finished) {
            handle_.finish(of.index);
            finished_[of.index] = 1;
            return;
        }
        if (of.round != present_.round + 1 || reported_[of.index]) {
            throw run_fault(fault_kind::mismatch, "an element reported for a round that is not under way", of.index);
        }
        if (is_balanced()) handle_.report(of);
        reported_[of.index] = 1;
        reported_count_++;
        loads_[of.index] = std::min(of.load, TEZGUMI_BOARD_LOAD);
        places_[of.index] = of.pe;
        bytes_[of.index] = of.bytes;
        given_[of.index] = std::move(of.given);
    }

    bool all_finished() { return handle_.all_finished(); }
    // Whether every element has reported for the round that is under way.
    bool is_complete() { return n_ != 0 && (is_balanced() ? handle_.is_complete() : reported_count_ == n_); }

    // Decides the round, for which every element has reported.
    const decision &decide()
    {
        decision next = present_;
        next.round = present_.round + 1;
        next.results.clear();
        join(next.results);
        report_ = round_report();
        report_.round = next.round;
        report_.balanced = is_balanced() || how_.moves_all;
        report_.past_limit = how_.every != 0 && next.round >= last_balanced_round;
        weigh();
        if (how_.moves_all) {
            move_all(next);
        } else if (report_.balanced) {
            balance(next);
        }
        present_ = next;
        reported_count_ = 0;
        std::fill(reported_.begin(), reported_.end(), std::uint8_t(0));
        std::fill(given_.begin(), given_.end(), contributions());
        return present_;
    }
    // What is known of the round that was decided last.
    const round_report &report() const { return report_; }
    // Writes the dump of that round, where there is to be one, by its number in the run.
    void write()
    {
        if (dump_.empty()) return;
        const std::string path = how_.dumps + "." + std::to_string(report_.round);
        std::FILE *file = std::fopen(path.c_str(), "wb");
        bool good = file != nullptr;
        if (file) good = std::fwrite(dump_.data(), 1, dump_.size(), file) == dump_.size();
        if (file) good = std::fclose(file) == 0 && good;
        dump_.clear();
        if (!good) throw run_fault(fault_kind::dump, "the dump " + path + " was not written");
    }

    // Nothing is left to do. Makes that a fault, which says how many elements have not finished, and of the first what they wait for.
    void tell_quiet(fault &met) const noexcept
    {
        met.kind = fault_kind::quiet;
        for (std::uint32_t i = n_; i-- > 0;) {
            if (!finished_[i]) met.element = i;
        }
        if (met.element == fault::no_element) return;
        for (std::uint32_t b = 0; b < pes_; b++) {
            if (present_.cuts[b] <= met.element && met.element < present_.cuts[b + 1]) met.pe = present_.names[b];
        }
        try {
            met.what = waiting_text();
        } catch (const std::bad_alloc &) {
            met.what.clear(); // there is no memory for words
        }
    }

private:
    std::string waiting_text() const
    {
        constexpr std::uint32_t told = 8;
        std::uint32_t count = 0, at_sync = 0;
        std::string first;
        for (std::uint32_t i = 0; i < n_; i++) {
            if (finished_[i]) continue;
            at_sync += reported_[i];
            if (count++ >= told) continue;
            first += (count == 1 ? ": element " : ", element ") + std::to_string(i);
            first += reported_[i] ? " waits for round " + std::to_string(present_.round + 1) : std::string(" waits for a message");
        }
        std::string text = std::to_string(count) + " of " + std::to_string(n_) + " elements have not finished" + first;
        if (count > told) text += ", and " + std::to_string(count - told) + " more";
        if (at_sync != 0 && count != n_) text += "; no round is decided without an element that has finished";
        return text;
    }
    // Whether the round that is under way is one in which elements may move.
    bool is_balanced() const
    {
        const std::uint32_t round = present_.round + 1;
        return !how_.moves_all && how_.every != 0 && round % how_.every == 0 && round < last_balanced_round;
    }
    // Folds what the elements contributed, in the order of the indices. All contribute to a round as often, or it is a fault, which names
    // one of each.
    void join(contributions &results) const
    {
        for (std::uint32_t i = 0; i < n_; i++) {
            if (given_[i].size() != given_[0].size()) throw run_fault(fault_kind::input, uneven(i), i);
            if (i == 0) results.resize(given_[0].size());
            for (std::size_t k = 0; k < results.size(); k++) {
                try {
                    results[k].join(given_[i][k]);
                } catch (const std::invalid_argument &met) {
                    throw run_fault(fault_kind::input, met.what(), i);
                }
            }
        }
    }
    std::string uneven(std::uint32_t i) const
    {
        const auto gave = [this](std::uint32_t of) {
            const std::size_t count = given_[of].size();
            return "element " + std::to_string(of) + " contributes " + (count == 0 ? "nothing" : count == 1 ? "a value" : std::to_string(count) + " values");
        };
        return gave(0) + " to round " + std::to_string(present_.round + 1) + ", and " + gave(i);
    }
    void weigh()
    {
        std::vector<std::uint64_t> on(pes_, 0);
        for (std::uint32_t i = 0; i < n_; i++) on[places_[i]] += loads_[i];
        for (std::uint64_t load : on) {
            report_.total += load;
            report_.greatest = std::max(report_.greatest, load);
        }
        report_.bottleneck = report_.greatest;
    }
    // For tests: each block goes to the PE behind the one that it is on.
    void move_all(decision &next)
    {
        for (std::uint32_t &pe : next.names) pe = (pe + 1) % pes_;
        for (std::uint64_t bytes : bytes_) report_.moved += pes_ > 1 ? bytes : 0;
    }
    void balance(decision &next)
    {
        handle_.decide(next, report_);
        if (!how_.dumps.empty()) take_dump(next.round);
        if (!handle_.go_on()) return;
        for (std::uint32_t i = 0; i < n_; i++) {
            if (finished_[i]) handle_.finish(i);
        }
    }
    void take_dump(std::uint32_t round)
    {
        constexpr std::size_t step_at = 4;
        dump_ = handle_.dump();
        if (dump_.size() >= step_at + 4) pup::detail::write_word<std::uint32_t>(&dump_[step_at], round);
    }

    const settings how_;
    const std::uint32_t pes_, n_;
    board_handle handle_;
    std::vector<std::uint64_t> loads_;
    std::vector<std::uint32_t> places_;
    std::vector<std::uint8_t> reported_, finished_;
    std::vector<contributions> given_;
    std::vector<std::uint64_t> bytes_; // that each element packs into
    std::uint32_t reported_count_ = 0;
    decision present_;
    round_report report_;
    pup::bytes dump_; // of the round that was decided last, until it is written
};

// Folds that wait for no round: of each what its elements have contributed so far.
class folds {
public:
    explicit folds(std::uint32_t n) : n_(n) {}

    // Takes what an element contributes. Whether it was the last; then this is what they came to, for the PE of the first element.
    bool take(share_of_fold &of, share_of_fold &whole)
    {
        shares &all = open_[of.of.key];
        if (all.given.empty()) all.given.resize(n_);
        if (of.index >= n_) throw run_fault(fault_kind::mismatch, "what no element contributes came");
        if (all.given[of.index].is_there()) {
            throw run_fault(fault_kind::input, "the element contributes twice to fold " + std::to_string(of.of.key), of.index);
        }
        all.given[of.index] = std::move(of.of.value);
        if (of.index == 0) all.pe = of.pe;
        if (++all.count != n_) return false;
        whole.pe = all.pe;
        whole.of.key = of.of.key;
        whole.of.value = contribution();
        for (std::uint32_t i = 0; i < n_; i++) {
            try {
                whole.of.value.join(all.given[i]);
            } catch (const std::invalid_argument &) {
                throw run_fault(fault_kind::input, "contributions to fold " + std::to_string(of.of.key) + " differ in kind or in length", i);
            }
        }
        open_.erase(of.of.key);
        return true;
    }

private:
    struct shares {
        std::vector<contribution> given;
        std::uint32_t count = 0, pe = 0;
    };
    const std::uint32_t n_;
    std::map<std::uint64_t, shares> open_;
};

// Whether all PEs have nothing to do: each is asked by a number, and answers once it has nothing to do, with how many messages it has
// sent and received. Nothing is left where two questions in a row are answered by the same numbers, as many sent as received. What PEs hand
// in without a message may give another PE something to do, so nothing of that may come in between either. Letters may be there that leave
// only then.
class quiet_question {
public:
    explicit quiet_question(std::uint32_t pes) : pes_(pes) {}
    std::uint32_t number() const { return number_; }
    bool is_open() const { return number_ != 0 && answers_ != pes_; }
    // Asks the next one.
    std::uint32_t ask()
    {
        answers_ = 0;
        sent_ = received_ = late_ = 0;
        return ++number_;
    }
    // Takes an answer, and how often PEs have handed something in by now, and says whether nothing is left to do.
    bool answer(std::uint32_t number, std::uint64_t sent, std::uint64_t received, std::uint64_t late, std::uint64_t handed_in = 0)
    {
        if (number != number_) return false;
        answers_++;
        late_ += late;
        sent_ += sent;
        received_ += received;
        if (answers_ != pes_) return false;
        const bool same = sent_ == received_ && sent_ == sent_before_ && received_ == received_before_ && handed_in == handed_in_before_;
        sent_before_ = sent_;
        received_before_ = received_;
        handed_in_before_ = handed_in;
        return same;
    }
    // How many letters leave now, as nothing is left to do.
    std::uint64_t late() const { return late_; }

private:
    const std::uint32_t pes_;
    std::uint32_t number_ = 0, answers_ = 0;
    std::uint64_t sent_ = 0, received_ = 0, late_ = 0;
    std::uint64_t sent_before_ = UINT64_MAX, received_before_ = UINT64_MAX, handed_in_before_ = 0;
};

} // namespace detail
} // namespace tezgumi

#endif
