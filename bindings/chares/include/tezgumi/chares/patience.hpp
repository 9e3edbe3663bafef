// How long a PE holds back letters of others. See tezgumi/chares.hpp.
#ifndef TEZGUMI_CHARES_PATIENCE_HPP
#define TEZGUMI_CHARES_PATIENCE_HPP

#include <algorithm>
#include <chrono>
#include <cstdint>
#include <vector>

namespace tezgumi {
namespace detail {

// PEs that hold back letters for each other would wait for ever. So after a while a PE that does nothing, and holds back letters of others, runs
// some of these; and one that goes on with its own runs one now and then. It waits twice as long as before where the PE to which such letters add
// has taken nothing since: that may be in a long handler, and wait for nobody.
class patience {
public:
    using point = std::chrono::steady_clock::time_point;
    using milliseconds = std::chrono::milliseconds;

    explicit patience(std::uint32_t pes) : with_(pes) {}

    // After a turn in which the PE was busy or not: how many are to run of the letters that it holds back, of which the first wait for PE `on`, to
    // which so many batches were sent.
    int after(bool busy, point now, std::uint32_t on, std::uint64_t sent)
    {
        if (!is_kept_) kept_since_ = now;
        is_kept_ = true;
        if (busy) {
            is_stalled_ = false;
            if (now - kept_since_ <= while_busy) return 0;
            is_kept_ = false;
            return 1;
        }
        if (!is_stalled_) stalled_since_ = now;
        is_stalled_ = true;
        grace &last = with_[on];
        const bool is_again = last.wait != milliseconds(0) && last.sent == sent;
        const milliseconds wait = is_again ? std::min(2 * last.wait, longest) : milliseconds(1);
        if (now - stalled_since_ <= wait) return 0;
        last = grace{wait, sent};
        is_stalled_ = false;
        return some;
    }
    // A letter that was held back has run, since it may; or there is none.
    void goes_on() { is_kept_ = false; }
    void rest() { is_kept_ = is_stalled_ = false; }

private:
    static constexpr int some = 64;
    static constexpr milliseconds while_busy{100}, longest{1024};
    // How long such letters last waited before some ran, and how many batches that PE had been sent.
    struct grace {
        milliseconds wait{0};
        std::uint64_t sent = 0;
    };

    std::vector<grace> with_; // of each PE
    bool is_stalled_ = false, is_kept_ = false;
    point stalled_since_{}, kept_since_{};
};

} // namespace detail
} // namespace tezgumi

#endif
