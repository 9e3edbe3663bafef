// The events of a PE, written down in the order in which it did them. See settings::events.
#ifndef TEZGUMI_CHARES_EVENTS_HPP
#define TEZGUMI_CHARES_EVENTS_HPP

#include "parcels.hpp"

#include <cinttypes>
#include <cstdio>

namespace tezgumi {
namespace detail {

// The file of one PE. A line begins with an event, as a list of events has it, and goes on with what is asked to merge the lists of all PEs.
// The last line counts the others. Events are told once they have happened, and what is lost is told later, by `check` or `close`: so no
// event is left half done.
class event_log {
public:
    event_log(const settings &how, std::uint32_t pe, std::uint32_t pes, std::uint32_t n)
        : pe_(pe), path_(how.events + "." + std::to_string(pe)), file_(std::fopen(path_.c_str(), "wb"))
    {
        if (!file_) lost();
        std::fprintf(file_, "pe %" PRIu32 " of %" PRIu32 " elements %" PRIu32 "\n", pe, pes, n);
    }
    ~event_log()
    {
        if (file_) std::fclose(file_);
    }
    event_log(const event_log &) = delete;
    event_log &operator=(const event_log &) = delete;

    void start(std::uint32_t element) noexcept { line("Start", pe_, element); }
    // A letter to an element gets an address: by the decision of a round, or since the element is on this PE.
    void look(std::uint32_t element, std::uint32_t at, std::uint32_t round) noexcept
    {
        line("Look", pe_, " element", element, " at", at, " round", round);
    }
    void look_here(std::uint32_t element) noexcept { line("Look", pe_, " element", element, " here"); }
    void flush(std::uint32_t to, const parcel &of) noexcept { carry("Flush", " to", to, of); }
    void deliver(std::uint32_t from, const parcel &of) noexcept { carry("Deliver", " from", from, of); }
    void act() noexcept { line("Act", pe_); }
    void report(const note &of) noexcept
    {
        if (of.finished) {
            line("Report", pe_, " element", of.index, " finished");
        } else {
            line("Report", pe_, " element", of.index, " round", of.round);
        }
    }
    void decide(std::uint32_t round) noexcept { line("Decide", " round", round); }
    void depart(std::uint32_t element, std::uint32_t to, std::uint32_t round) noexcept
    {
        line("Depart", pe_, element, " to", to, " round", round);
    }
    void resume(std::uint32_t element, std::uint32_t round) noexcept { line("Resume", pe_, element, " round", round); }

    // Throws where a line was not written.
    void check()
    {
        if (std::ferror(file_)) lost();
    }
    // Ends the file.
    void close()
    {
        if (!file_) return;
        std::fprintf(file_, "end %" PRIu64 "\n", lines_);
        const bool good = !std::ferror(file_);
        std::FILE *const file = file_;
        file_ = nullptr;
        if (std::fclose(file) != 0 || !good) lost();
    }

private:
    [[noreturn]] void lost() const { throw run_fault(fault_kind::dump, "the events " + path_ + " were not written"); }

    void put(const char *words) noexcept { std::fputs(words, file_); }
    void put(std::uint32_t number) noexcept { std::fprintf(file_, " %" PRIu32, number); }
    template <class... Parts> void line(Parts... parts) noexcept
    {
        if (!file_) return;
        (put(parts), ...);
        std::fputc('\n', file_);
        lines_++;
    }
    void carry(const char *event, const char *way, std::uint32_t other, const parcel &of) noexcept
    {
        if (of.is_element()) {
            line(event, pe_, way, other, " element", of.element());
        } else {
            line(event, pe_, way, other, " letter", of.poster(), of.number());
        }
    }

    const std::uint32_t pe_;
    const std::string path_;
    std::FILE *file_;
    std::uint64_t lines_ = 0;
};

} // namespace detail
} // namespace tezgumi

#endif
