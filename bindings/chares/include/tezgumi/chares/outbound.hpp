// What a PE has for others and has not sent yet: its backlog, which is counted by receiver. See tezgumi/chares.hpp.
#ifndef TEZGUMI_CHARES_OUTBOUND_HPP
#define TEZGUMI_CHARES_OUTBOUND_HPP

#include "parcels.hpp"

#include <chrono>
#include <deque>

namespace tezgumi {
namespace detail {

class outbound {
public:
    outbound(const settings &how, std::uint32_t pes) : how_(how), ways_(pes) {}

    // Adds a parcel for this PE. Where memory is refused all is as it was.
    void add(std::uint32_t to, const parcel &of)
    {
        way &onto = ways_[to];
        if (onto.open.whole_size() >= how_.batch) close(onto);
        const std::size_t before = onto.open.whole_size();
        onto.open.add(of, how_.batch);
        count(onto, onto.bytes + (onto.open.whole_size() - before));
    }
    // Sends what may be sent of batches that are long enough, or of all. Whether it sent any.
    bool flush(link &carrier, std::uint32_t round, bool all)
    {
        bool did = false;
        if (total_ == 0) return false;
        for (std::uint32_t to = 0; to < ways_.size(); to++) {
            way &from = ways_[to];
            while (from.bytes != 0 && carrier.may_send(to)) {
                if (from.ready.empty() && (all || from.open.whole_size() >= how_.batch)) close(from);
                if (from.ready.empty()) break;
                batch &front = from.ready.front();
                const std::size_t size = front.whole_size();
                front.stamp(round);
                carrier.send(to, front);
                from.ready.pop_front();
                from.sent++;
                count(from, from.bytes - size);
                did = true;
            }
        }
        return did;
    }

    // All bytes that wait here.
    std::size_t total() const { return total_; }
    // How many batches were sent to this PE.
    std::uint64_t sent(std::uint32_t to) const { return ways_[to].sent; }
    // Whether more bytes wait for this PE than are left of twice so many times the limit. So none is over while all together are within the
    // limit, and PEs that become slow one after another, each with less room than the one before, never have more than twice the limit.
    bool is_over(std::uint32_t to, std::size_t times) const
    {
        const std::size_t most = 2 * times * how_.backlog;
        return ways_[to].bytes > most - std::min(total_, most);
    }

    // All batches, at the end.
    template <class F> void each(F &&of)
    {
        for (way &one : ways_) {
            of(one.open);
            for (batch &more : one.ready) of(more);
        }
    }

private:
    // The batches for one PE: those that are long enough, and the one that is not. In all so many bytes.
    struct way {
        batch open;
        std::deque<batch> ready;
        std::size_t bytes = 0;
        std::uint64_t sent = 0; // batches
    };

    void close(way &of)
    {
        of.ready.emplace_back();
        std::swap(of.ready.back(), of.open);
    }
    void count(way &of, std::size_t bytes)
    {
        total_ += bytes - of.bytes;
        of.bytes = bytes;
    }

    const settings &how_;
    std::vector<way> ways_;
    std::size_t total_ = 0; // bytes for all PEs
};

} // namespace detail
} // namespace tezgumi

#endif
