// How fast lists of numbers are packed and unpacked, beside memcpy in the same process and beside their numbers one by one: ratios of the least of
// many short times.
#include "harness.hpp"

using tests::expect;

namespace {

using seconds = std::chrono::duration<double>;

template <class F> double time_of(F &&run)
{
    const auto start = std::chrono::steady_clock::now();
    run();
    return seconds(std::chrono::steady_clock::now() - start).count();
}

// A number as a member of a struct of its own, which is not packed in bulk.
template <class T> struct single {
    T value = 0;
    void pup(pup::er &p) { p(value); }
};

// The least times of turns in which each is done once, so that all have the same luck.
struct times {
    double copy = 1e9, pack = 1e9, unpack = 1e9, pack_each = 1e9, unpack_each = 1e9;
};
template <class T> times measure(std::size_t count)
{
    std::vector<T> numbers(count, T(7)), found, other(count);
    std::vector<single<T>> singles(count), others;
    pup::bytes packed, packed_each;
    times least;
    for (int turn = 0; turn < 40; turn++) {
        packed.clear();
        packed_each.clear();
        numbers[0] = static_cast<T>(turn);
        least.copy = std::min(least.copy, time_of([&] { std::memcpy(other.data(), numbers.data(), count * sizeof(T)); }));
        least.pack = std::min(least.pack, time_of([&] { pup::pack(numbers, packed); }));
        least.unpack = std::min(least.unpack, time_of([&] { pup::unpack(found, packed.data(), packed.size()); }));
        least.pack_each = std::min(least.pack_each, time_of([&] { pup::pack(singles, packed_each); }));
        least.unpack_each = std::min(least.unpack_each, time_of([&] { pup::unpack(others, packed_each.data(), packed_each.size()); }));
        if (other[0] != numbers[0] || found != numbers || packed.size() != packed_each.size()) return times();
    }
    return least;
}

std::string ratio(double of) { return std::to_string(int(10 * of + 0.5) / 10.0).substr(0, 4); }

// Bytes are copied as they are, and of longer numbers the bytes are turned.
template <class T> void speeds(const std::string &name, double most)
{
    const times of = measure<T>(2000000 / sizeof(T));
    const double pack = of.pack / of.copy, unpack = of.unpack / of.copy, gain = of.pack_each / of.pack, gained = of.unpack_each / of.unpack;
    const std::string text = name + ": " + ratio(pack) + " and " + ratio(unpack) + " of memcpy, " + ratio(gain) + " and " + ratio(gained) + " times as fast as one by one";
    expect(text, pack < most && unpack < most && gain > 1.5 && gained > 1.1);
}

} // namespace

int main()
{
    speeds<double>("doubles", 4);
    speeds<float>("floats", 4);
    speeds<std::uint8_t>("bytes", 4);
    return tests::failed != 0;
}
