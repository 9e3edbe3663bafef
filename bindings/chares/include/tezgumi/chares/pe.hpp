// A PE of the library behind its handle. See tezgumi/chares.hpp.
#ifndef TEZGUMI_CHARES_PE_HPP
#define TEZGUMI_CHARES_PE_HPP

#include "chare.hpp"

namespace tezgumi {
namespace detail {

// What a status of the library is as a fault.
inline fault_kind kind_of(std::int32_t status)
{
    switch (status) {
    case TEZGUMI_PE_NO_MEMORY: return fault_kind::memory;
    case TEZGUMI_PE_STRANGER: return fault_kind::stranger;
    case TEZGUMI_PE_TOO_LONG: return fault_kind::toolong;
    case TEZGUMI_PE_WORN: return fault_kind::worn;
    default: return fault_kind::mismatch;
    }
}

[[noreturn]] inline void refused(std::int32_t status, const char *call, std::uint32_t element)
{
    throw run_fault(kind_of(status), std::string(call) + " answered " + std::to_string(status), element);
}
inline void must(std::int32_t status, const char *call, std::uint32_t element = fault::no_element)
{
    if (status != TEZGUMI_PE_OK) refused(status, call, element);
}

// The exception that is under way, as a fault of this PE.
inline fault fault_under_way(std::uint32_t pe) noexcept
{
    fault met;
    met.pe = pe;
    try {
        try {
            throw;
        } catch (const run_fault &of) {
            met.kind = of.kind;
            met.element = of.element;
            met.what = of.what();
        } catch (const std::bad_alloc &) {
            met.kind = fault_kind::memory;
            met.what = "memory was refused";
        } catch (const std::exception &of) {
            met.kind = fault_kind::mismatch;
            met.what = of.what();
        } catch (...) {
            met.kind = fault_kind::mismatch;
        }
    } catch (const std::bad_alloc &) {
        met.what.clear(); // there is no memory for words
    }
    return met;
}

// Runs what may throw what a program throws, for an element.
template <class F> void guarded(std::uint32_t index, F &&run)
{
    try {
        run();
    } catch (const run_fault &met) {
        throw run_fault(met.kind, met.what(), met.element == fault::no_element ? index : met.element);
    } catch (const std::bad_alloc &) {
        throw run_fault(fault_kind::memory, "memory was refused", index);
    } catch (const stranger &met) {
        throw run_fault(fault_kind::stranger, met.what(), index);
    } catch (const std::exception &met) {
        throw run_fault(fault_kind::handler, met.what(), index);
    } catch (...) {
        throw run_fault(fault_kind::handler, "an exception of a type that is not known", index);
    }
}

// The handle of a PE, which is not copied.
class pe_handle {
public:
    pe_handle(std::uint32_t me, std::uint32_t pes, std::uint32_t n) { must(tezgumi_pe_open(&pe_, me, pes, n), "tezgumi_pe_open"); }
    ~pe_handle() { tezgumi_pe_close(&pe_); }
    pe_handle(const pe_handle &) = delete;
    pe_handle &operator=(const pe_handle &) = delete;

    // Whether a handler is due for the letter in the hand. Whose it is and its body are those of the message that was received.
    bool is_due()
    {
        std::uint32_t index = 0;
        std::size_t len = 0;
        const std::int32_t status = tezgumi_pe_due(&pe_, &index, &nothing_, 0, &len);
        if (status == TEZGUMI_PE_NOTHING) return false;
        if (status != TEZGUMI_PE_LONGER) must(status, "tezgumi_pe_due");
        return true;
    }
    void execute(std::uint32_t index, const tezgumi_answer &answer)
    {
        must(tezgumi_pe_execute(&pe_, answer.bytes, answer.len), "tezgumi_pe_execute", index);
    }
    void resume(std::uint32_t index, std::uint32_t round, const tezgumi_answer &answer)
    {
        must(tezgumi_pe_resume(&pe_, index, round, answer.bytes, answer.len), "tezgumi_pe_resume", index);
    }
    bool wanted(std::uint32_t &index)
    {
        const std::int32_t status = tezgumi_pe_wanted(&pe_, &index);
        if (status == TEZGUMI_PE_NOTHING) return false;
        must(status, "tezgumi_pe_wanted");
        return true;
    }
    void look(std::uint32_t address) { must(tezgumi_pe_look(&pe_, address), "tezgumi_pe_look"); }
    // Acts on the hand, and says whether it did.
    bool act()
    {
        const std::int32_t status = tezgumi_pe_act(&pe_);
        if (status == TEZGUMI_PE_NOT_NOW) return false;
        must(status, "tezgumi_pe_act");
        return true;
    }
    void depart(std::uint32_t index, std::uint32_t to) { must(tezgumi_pe_depart(&pe_, index, to), "tezgumi_pe_depart", index); }
    // Gives up the front of the outbox, where that has an address.
    bool send(std::uint32_t &to, const std::uint8_t *&message, std::size_t &len)
    {
        if (message_.empty()) message_.resize(2048);
        for (;;) {
            const std::int32_t status = tezgumi_pe_send(&pe_, &to, message_.data(), message_.size(), &len);
            if (status == TEZGUMI_PE_NOT_NOW) return false;
            if (status == TEZGUMI_PE_LONGER) {
                message_.resize(len + len / 2);
                continue;
            }
            must(status, "tezgumi_pe_send");
            message = message_.data();
            return true;
        }
    }
    void receive(const std::uint8_t *message, std::size_t len) { must(tezgumi_pe_receive(&pe_, message, len), "tezgumi_pe_receive"); }
    // The note that is owed first.
    bool next_note(note &owed)
    {
        std::uint32_t kind = 0, bytes = 0;
        const std::int32_t status = tezgumi_pe_next_note(&pe_, &kind, &owed.index, &owed.round, &owed.load, &bytes);
        if (status == TEZGUMI_PE_NOTHING) return false;
        must(status, "tezgumi_pe_next_note");
        owed.finished = kind == 1;
        return true;
    }
    void note_done() { must(tezgumi_pe_note_done(&pe_), "tezgumi_pe_note_done"); }

private:
    tezgumi_pe pe_ = {nullptr, false};
    pup::bytes message_;
    std::uint8_t nothing_ = 0;
};

} // namespace detail
} // namespace tezgumi

#endif
