// pup::er: one function sizes, packs and unpacks a type (C++17).
//
//     struct strip {
//         std::vector<double> cells;
//         std::optional<double> left;
//         void pup(tezgumi::pup::er &p) { p(cells, left); }      // or: p | cells; p | left;
//     };
//
// It takes numbers, bool, enumerations, std::string, std::complex, std::array, arrays, std::bitset, std::chrono, std::pair, std::tuple,
// std::optional, std::variant, std::unique_ptr, std::shared_ptr, the lists, queues, sets and maps of the standard library, types with a
// member pup, and those that tezgumi::pup::of is specialized for. The bytes are those of docs/FORMATS.md, "Packed states": numbers have
// their highest byte first, and a list begins with its count in four bytes. Only a NaN keeps its own bits here.
//
// What is unpacked is not trusted: bytes that end too early, or that are no value, are an exception, pup::error. And what is sized or
// packed is not written to, so that it may be constant, or be looked at by several threads.
#ifndef TEZGUMI_PUP_HPP
#define TEZGUMI_PUP_HPP

#if __cplusplus < 201703L
#error "tezgumi needs C++17 or a later standard: compile with -std=c++17"
#endif

#include <algorithm>
#include <array>
#include <bitset>
#include <chrono>
#include <complex>
#include <cstddef>
#include <cstdint>
#include <cstring>
#include <deque>
#include <forward_list>
#include <iterator>
#include <limits>
#include <list>
#include <map>
#include <memory>
#include <optional>
#include <queue>
#include <set>
#include <stack>
#include <stdexcept>
#include <string>
#include <tuple>
#include <type_traits>
#include <unordered_map>
#include <unordered_set>
#include <utility>
#include <variant>
#include <vector>

namespace tezgumi {
namespace pup {

using bytes = std::vector<std::uint8_t>;

// Bytes are no value of a type: they end too early, or one of them is out of range. Or a list has 2^32 items or more.
class error : public std::runtime_error {
public:
    using std::runtime_error::runtime_error;
};

class er;

namespace detail {
template <class T, class = void> struct has_pup : std::false_type {};
template <class T> struct has_pup<T, std::void_t<decltype(std::declval<T &>().pup(std::declval<er &>()))>> : std::true_type {};
template <class T> struct is_address : std::integral_constant<bool, std::is_pointer<T>::value || std::is_member_pointer<T>::value> {};
} // namespace detail

// How a type is packed. Specialize it for a type that is not yours: static void pup(er &p, type &value).
template <class T, class = void> struct of {
    static void pup(er &p, T &value)
    {
        static_assert(!detail::is_address<T>::value,
            "pup: a pointer means nothing on another PE; keep an index, or an owner such as std::unique_ptr");
        static_assert(!std::is_same<T, long double>::value, "pup: long double has other bytes on other machines; keep a double");
        static_assert(detail::has_pup<T>::value || detail::is_address<T>::value || std::is_same<T, long double>::value,
            "pup: this type has no public member pup(tezgumi::pup::er &), and tezgumi::pup::of is not specialized for it");
        if constexpr (detail::has_pup<T>::value) value.pup(p);
    }
};

namespace detail {
template <std::size_t> struct word;
template <> struct word<1> { using type = std::uint8_t; };
template <> struct word<2> { using type = std::uint16_t; };
template <> struct word<4> { using type = std::uint32_t; };
template <> struct word<8> { using type = std::uint64_t; };
template <class T> using word_of = typename word<sizeof(T)>::type;

// Whether a type is a number that packs into its own bytes.
template <class T>
struct is_number : std::integral_constant<bool, std::is_arithmetic<T>::value && !std::is_same<T, bool>::value && sizeof(T) <= 8> {};

template <class T> word_of<T> bits_of(T value)
{
    word_of<T> bits;
    std::memcpy(&bits, &value, sizeof bits);
    return bits;
}

// Each byte by a statement of its own, which compilers make one instruction of.
template <class W, std::size_t... I> void write_bytes(std::uint8_t *at, W bits, std::index_sequence<I...>)
{
    ((at[I] = static_cast<std::uint8_t>(bits >> (8 * (sizeof(W) - 1 - I)))), ...);
}
template <class W, std::size_t... I> W read_bytes(const std::uint8_t *at, std::index_sequence<I...>)
{
    return static_cast<W>((... | (static_cast<std::uint64_t>(at[I]) << (8 * (sizeof(W) - 1 - I)))));
}
template <class W> void write_word(std::uint8_t *at, W bits) { write_bytes<W>(at, bits, std::make_index_sequence<sizeof(W)>()); }
template <class W> W read_word(const std::uint8_t *at) { return read_bytes<W>(at, std::make_index_sequence<sizeof(W)>()); }

// Copies words between memory and packed bytes, in either direction, eight bytes at a time where the compiler has a name for that.
template <class W> void copy_words(void *to, const void *from, std::size_t count)
{
    auto *onto = static_cast<std::uint8_t *>(to);
    auto *of = static_cast<const std::uint8_t *>(from);
    std::size_t at = 0, end = count * sizeof(W);
#if defined(__GNUC__) && __BYTE_ORDER__ == __ORDER_LITTLE_ENDIAN__
    for (; sizeof(W) > 1 && end - at >= 8; at += 8) {
        std::uint64_t bits;
        std::memcpy(&bits, of + at, 8);
        bits = __builtin_bswap64(bits);
        if (sizeof(W) == 4) bits = bits << 32 | bits >> 32;
        if (sizeof(W) == 2) bits = (bits & 0xffff) << 48 | (bits & 0xffff0000) << 16 | (bits >> 16 & 0xffff0000) | bits >> 48;
        std::memcpy(onto + at, &bits, 8);
    }
#endif
    if (sizeof(W) == 1) std::memcpy(onto, of, count);
    for (; sizeof(W) > 1 && at < end; at += sizeof(W)) {
        W bits;
        std::memcpy(&bits, of + at, sizeof bits);
        bits = read_word<W>(reinterpret_cast<const std::uint8_t *>(&bits));
        std::memcpy(onto + at, &bits, sizeof bits);
    }
}
} // namespace detail

// What a type's pup is given. It has one of three modes, and a type may ask which.
class er {
public:
    enum class mode { sizing, packing, unpacking };

    // Sizes.
    er() : mode_(mode::sizing) {}
    // Packs, behind what is in these bytes.
    explicit er(bytes &out) : mode_(mode::packing), out_(&out) {}
    // Packs into so many bytes that are there.
    static er into(std::uint8_t *to, std::size_t len)
    {
        er made;
        made.mode_ = mode::packing;
        made.to_ = to;
        made.to_end_ = to + len;
        return made;
    }
    // Packs behind what is in these bytes, which are longer than what was packed until they are cut.
    static er onto(bytes &out)
    {
        er made(out);
        made.ahead_ = block_bytes;
        return made;
    }
    void cut()
    {
        if (out_) out_->resize(out_->size() - room());
        to_ = to_end_ = nullptr;
    }
    // Unpacks these bytes.
    er(const std::uint8_t *from, std::size_t len) : mode_(mode::unpacking), from_(from), end_(from + len) {}

    bool is_sizing() const { return mode_ == mode::sizing; }
    bool is_packing() const { return mode_ == mode::packing; }
    bool is_unpacking() const { return mode_ == mode::unpacking; }

    // How many bytes were counted.
    std::size_t size() const { return size_; }
    // How many bytes are left to be unpacked; and of those that are there to be packed into.
    std::size_t left() const { return static_cast<std::size_t>(end_ - from_); }
    std::size_t room() const { return static_cast<std::size_t>(to_end_ - to_); }

    // Each of these values, in order.
    template <class... T> er &operator()(T &...values)
    {
        (one(values), ...);
        return *this;
    }
    template <class T> er &operator|(T &value) { return (*this)(value); }

    // This many bytes as they are.
    void raw(void *at, std::size_t count)
    {
        if (count == 0) return;
        if (is_sizing()) {
            size_ += count;
        } else if (is_packing()) {
            std::memcpy(take_room(count), at, count);
        } else {
            std::memcpy(at, take(count), count);
        }
    }

    // This many numbers.
    template <class T> void numbers(T *at, std::size_t count)
    {
        static_assert(detail::is_number<T>::value && sizeof(T) <= 8, "a number of 1, 2, 4 or 8 bytes");
        using word = detail::word_of<T>;
        if (count == 0) return;
        if (is_sizing()) {
            size_ += count * sizeof(T);
        } else if (is_packing() && out_ && count * sizeof(T) > block_bytes) {
            append<T, word>(at, count);
        } else if (is_packing()) {
            detail::copy_words<word>(take_room(count * sizeof(T)), at, count);
        } else {
            if (count > left() / sizeof(T)) throw error("pup: the bytes end too early");
            detail::copy_words<word>(at, take(count * sizeof(T)), count);
        }
    }
    // One number, which is copied without a loop.
    template <class T> void number(T &value)
    {
        using word = detail::word_of<T>;
        if (is_sizing()) {
            size_ += sizeof(T);
        } else if (is_packing()) {
            detail::write_word<word>(take_room(sizeof(T)), detail::bits_of(value));
        } else {
            const word bits = detail::read_word<word>(take(sizeof(T)));
            std::memcpy(&value, &bits, sizeof bits);
        }
    }

    // The count of a list, in four bytes.
    std::size_t count(std::size_t items)
    {
        if (items > std::numeric_limits<std::uint32_t>::max()) throw error("pup: a list has 2^32 items or more");
        std::uint32_t found = static_cast<std::uint32_t>(items);
        number(found);
        return found;
    }

private:
    template <class T> void one(T &value)
    {
        static_assert(!std::is_const<T>::value,
            "pup: what is constant cannot be unpacked; a member pup is not const, and neither are the fields that it names");
        if constexpr (!std::is_const<T>::value) of<T>::pup(*this, value);
    }

    const std::uint8_t *take(std::size_t count)
    {
        if (count > left()) throw error("pup: the bytes end too early");
        const std::uint8_t *at = from_;
        from_ += count;
        return at;
    }

    std::uint8_t *take_room(std::size_t count)
    {
        if (count > room()) make_room(count);
        std::uint8_t *at = to_;
        to_ += count;
        return at;
    }
    // It is called seldom, and is a function of its own, so that what packs a number is short.
#if defined(__GNUC__)
    __attribute__((noinline, cold))
#endif
    void make_room(std::size_t count)
    {
        if (!out_) throw error("pup: a value packs into more bytes than it counted");
        const std::size_t used = out_->size() - room(), left_there = out_->capacity() - used;
        const std::size_t more = std::max(count, std::min(ahead_, left_there));
        out_->resize(used + more);
        to_ = out_->data() + used;
        to_end_ = to_ + more;
    }

    // Packs many numbers by blocks that stay near the processor, so that memory is written once.
    template <class T, class Word> void append(const T *at, std::size_t count)
    {
        cut();
        std::uint8_t block[block_bytes];
        while (count > 0) {
            const std::size_t some = std::min(count, block_bytes / sizeof(T));
            detail::copy_words<Word>(block, at, some);
            out_->insert(out_->end(), block, block + some * sizeof(T));
            at += some;
            count -= some;
        }
    }

    static constexpr std::size_t block_bytes = 4096;
    mode mode_;
    bytes *out_ = nullptr;
    std::size_t ahead_ = 0; // so many bytes are taken at a time, where fewer are asked for
    std::uint8_t *to_ = nullptr, *to_end_ = nullptr;
    const std::uint8_t *from_ = nullptr, *end_ = nullptr;
    std::size_t size_ = 0;
};

template <class T> struct of<T, typename std::enable_if<detail::is_number<T>::value>::type> {
    static void pup(er &p, T &value) { p.number(value); }
};

template <> struct of<bool> {
    static void pup(er &p, bool &value)
    {
        std::uint8_t byte = value ? 1 : 0;
        p.raw(&byte, 1);
        if (byte > 1) throw error("pup: a byte is no bool");
        if (p.is_unpacking()) value = byte == 1;
    }
};

template <class T> struct of<T, typename std::enable_if<std::is_enum<T>::value>::type> {
    static void pup(er &p, T &value)
    {
        auto bits = static_cast<typename std::underlying_type<T>::type>(value);
        p(bits);
        if (p.is_unpacking()) value = static_cast<T>(bits);
    }
};

namespace detail {
// Items that take no bytes: of so many the count alone may tell.
inline constexpr std::size_t most_without_bytes = 65536;

inline void must_have_items(const er &p, std::size_t count)
{
    if (count > p.left() && count - p.left() > most_without_bytes) throw error("pup: the bytes end too early");
}

// A value of a type that is about to be unpacked.
template <class T> constexpr void must_be_made()
{
    static_assert(std::is_default_constructible<T>::value, "pup: this type is unpacked, so it needs a constructor without arguments");
}

// The items of a list. They are added one by one as their bytes come, so that a wrong count does not ask for memory.
template <class Items> void pup_items(er &p, Items &items, std::size_t count)
{
    if (!p.is_unpacking()) {
        for (auto &item : items) p(item);
        return;
    }
    must_have_items(p, count);
    must_be_made<typename Items::value_type>();
    items.clear();
    if constexpr (std::is_default_constructible<typename Items::value_type>::value) {
        for (std::size_t i = 0; i < count; i++) {
            items.emplace_back();
            p(items.back());
        }
    }
}

// The list that an adaptor of the standard library keeps.
template <class A> struct adapted : A {
    static typename A::container_type &in(A &of) { return of.*(&adapted::c); }
};

template <class T, class = void> struct is_map : std::false_type {};
template <class T> struct is_map<T, std::void_t<typename T::key_type, typename T::mapped_type>> : std::integral_constant<bool, !has_pup<T>::value> {};
template <class T, class = void> struct is_set : std::false_type {};
template <class T>
struct is_set<T, std::void_t<typename T::key_type>> : std::integral_constant<bool, !is_map<T>::value && !has_pup<T>::value> {};

// A set or a map of which no key came twice, unless it takes such.
template <class Items> void must_have(const Items &items, std::size_t count)
{
    if (items.size() != count) throw error("pup: a key comes twice");
}
} // namespace detail

template <> struct of<std::string> {
    static void pup(er &p, std::string &text)
    {
        const std::size_t count = p.count(text.size());
        if (p.is_unpacking()) {
            if (count > p.left()) throw error("pup: the bytes end too early");
            text.resize(count);
        }
        p.raw(&text[0], count);
    }
};

template <class T, class A> struct of<std::vector<T, A>> {
    static void pup(er &p, std::vector<T, A> &items)
    {
        const std::size_t count = p.count(items.size());
        if constexpr (detail::is_number<T>::value) {
            if (p.is_unpacking()) return unpack_numbers(p, items, count);
            p.numbers(items.data(), count);
        } else {
            detail::pup_items(p, items, count);
        }
    }

private:
    // By blocks that stay near the processor, so that the memory of the list is written once.
    static void unpack_numbers(er &p, std::vector<T, A> &items, std::size_t count)
    {
        constexpr std::size_t block = 4096 / sizeof(T);
        if (count > p.left() / sizeof(T)) throw error("pup: the bytes end too early");
        items.clear();
        if (count <= block) {
            items.resize(count);
            return p.numbers(items.data(), count);
        }
        items.reserve(count);
        T numbers[block];
        for (std::size_t at = 0; at < count; at += block) {
            const std::size_t some = count - at < block ? count - at : block;
            p.numbers(numbers, some);
            items.insert(items.end(), numbers, numbers + some);
        }
    }
};

template <class T, class A> struct of<std::deque<T, A>> {
    static void pup(er &p, std::deque<T, A> &items) { detail::pup_items(p, items, p.count(items.size())); }
};

template <class T, class A> struct of<std::list<T, A>> {
    static void pup(er &p, std::list<T, A> &items) { detail::pup_items(p, items, p.count(items.size())); }
};

template <class T, class A> struct of<std::forward_list<T, A>> {
    static void pup(er &p, std::forward_list<T, A> &items)
    {
        const std::size_t count = p.count(static_cast<std::size_t>(std::distance(items.begin(), items.end())));
        if (!p.is_unpacking()) {
            for (T &item : items) p(item);
            return;
        }
        detail::must_have_items(p, count);
        detail::must_be_made<T>();
        items.clear();
        auto last = items.before_begin();
        for (std::size_t i = 0; i < count; i++) {
            last = items.emplace_after(last);
            p(*last);
        }
    }
};

template <class T, class A> struct of<std::queue<T, A>> {
    static void pup(er &p, std::queue<T, A> &items) { p(detail::adapted<std::queue<T, A>>::in(items)); }
};

template <class T, class A> struct of<std::stack<T, A>> {
    static void pup(er &p, std::stack<T, A> &items) { p(detail::adapted<std::stack<T, A>>::in(items)); }
};

// Its heap is packed as it is.
template <class T, class A, class Before> struct of<std::priority_queue<T, A, Before>> {
    static void pup(er &p, std::priority_queue<T, A, Before> &items) { p(detail::adapted<std::priority_queue<T, A, Before>>::in(items)); }
};

template <class A> struct of<std::vector<bool, A>> {
    static void pup(er &p, std::vector<bool, A> &items)
    {
        const std::size_t count = p.count(items.size());
        if (p.is_unpacking()) {
            if (count > p.left()) throw error("pup: the bytes end too early");
            items.assign(count, false);
        }
        for (std::size_t i = 0; i < count; i++) {
            bool item = items[i];
            p(item);
            if (p.is_unpacking()) items[i] = item;
        }
    }
};

// Sets and maps, in the order in which they have their keys.
template <class T> struct of<T, typename std::enable_if<detail::is_set<T>::value>::type> {
    static void pup(er &p, T &keys)
    {
        const std::size_t count = p.count(keys.size());
        if (!p.is_unpacking()) {
            for (const auto &key : keys) p(const_cast<typename T::key_type &>(key));
            return;
        }
        detail::must_have_items(p, count);
        detail::must_be_made<typename T::key_type>();
        keys.clear();
        for (std::size_t i = 0; i < count; i++) {
            typename T::key_type key{};
            p(key);
            keys.insert(keys.end(), std::move(key));
        }
        detail::must_have(keys, count);
    }
};

template <class T> struct of<T, typename std::enable_if<detail::is_map<T>::value>::type> {
    static void pup(er &p, T &items)
    {
        const std::size_t count = p.count(items.size());
        if (!p.is_unpacking()) {
            for (auto &item : items) p(const_cast<typename T::key_type &>(item.first), item.second);
            return;
        }
        detail::must_have_items(p, count);
        detail::must_be_made<typename T::key_type>();
        detail::must_be_made<typename T::mapped_type>();
        items.clear();
        for (std::size_t i = 0; i < count; i++) {
            typename T::key_type key{};
            typename T::mapped_type value{};
            p(key, value);
            items.emplace_hint(items.end(), std::move(key), std::move(value));
        }
        detail::must_have(items, count);
    }
};

template <class T> struct of<std::complex<T>> {
    static void pup(er &p, std::complex<T> &value)
    {
        T parts[2] = {value.real(), value.imag()};
        p.numbers(parts, 2);
        if (p.is_unpacking()) value = std::complex<T>(parts[0], parts[1]);
    }
};

template <class T, std::size_t N> struct of<std::array<T, N>> {
    static void pup(er &p, std::array<T, N> &items)
    {
        if constexpr (detail::is_number<T>::value) {
            p.numbers(items.data(), N);
        } else {
            for (T &item : items) p(item);
        }
    }
};

template <class T, std::size_t N> struct of<T[N]> {
    static void pup(er &p, T (&items)[N])
    {
        if constexpr (detail::is_number<T>::value) {
            p.numbers(items, N);
        } else {
            for (T &item : items) p(item);
        }
    }
};

template <class A, class B> struct of<std::pair<A, B>> {
    static void pup(er &p, std::pair<A, B> &both) { p(both.first, both.second); }
};

template <class... T> struct of<std::tuple<T...>> {
    static void pup(er &p, std::tuple<T...> &parts)
    {
        std::apply([&p](T &...part) { p(part...); }, parts);
    }
};

template <class T> struct of<std::optional<T>> {
    static void pup(er &p, std::optional<T> &value)
    {
        detail::must_be_made<T>();
        bool is_there = value.has_value();
        p(is_there);
        if (p.is_unpacking()) {
            value.reset();
            if (is_there) value.emplace();
        }
        if (is_there) p(*value);
    }
};

template <> struct of<std::monostate> {
    static void pup(er &, std::monostate &) {}
};

// Which of its types the value has, in four bytes, and the value.
template <class... T> struct of<std::variant<T...>> {
    static void pup(er &p, std::variant<T...> &value)
    {
        if (!p.is_unpacking() && value.valueless_by_exception()) throw error("pup: a variant has no value");
        std::size_t place = p.count(p.is_unpacking() ? 0 : value.index());
        if (place >= sizeof...(T)) throw error("pup: a variant has no type with this number");
        pup_at(p, value, place, std::index_sequence_for<T...>());
    }

private:
    template <std::size_t... I> static void pup_at(er &p, std::variant<T...> &value, std::size_t place, std::index_sequence<I...>)
    {
        ((I == place ? pup_one<I>(p, value) : void()), ...);
    }
    template <std::size_t I> static void pup_one(er &p, std::variant<T...> &value)
    {
        detail::must_be_made<std::variant_alternative_t<I, std::variant<T...>>>();
        if (p.is_unpacking()) value.template emplace<I>();
        p(std::get<I>(value));
    }
};

template <class Count, class Unit> struct of<std::chrono::duration<Count, Unit>> {
    static void pup(er &p, std::chrono::duration<Count, Unit> &value)
    {
        Count count = value.count();
        p(count);
        if (p.is_unpacking()) value = std::chrono::duration<Count, Unit>(count);
    }
};

// As the time since the epoch of its clock. That of a steady clock means nothing on another host.
template <class Clock, class Duration> struct of<std::chrono::time_point<Clock, Duration>> {
    static void pup(er &p, std::chrono::time_point<Clock, Duration> &value)
    {
        Duration since = value.time_since_epoch();
        p(since);
        if (p.is_unpacking()) value = std::chrono::time_point<Clock, Duration>(since);
    }
};

// Eight bits to a byte, the first of them the lowest.
template <std::size_t N> struct of<std::bitset<N>> {
    static void pup(er &p, std::bitset<N> &bits)
    {
        std::uint8_t packed[(N + 7) / 8 + 1] = {0};
        for (std::size_t i = 0; i < N; i++) packed[i / 8] = static_cast<std::uint8_t>(packed[i / 8] | (bits[i] ? 1 << i % 8 : 0));
        p.raw(packed, (N + 7) / 8);
        if (!p.is_unpacking()) return;
        if (N % 8 != 0 && packed[N / 8] >> N % 8 != 0) throw error("pup: a bit is past the end of a bitset");
        for (std::size_t i = 0; i < N; i++) bits[i] = packed[i / 8] >> i % 8 & 1;
    }
};

namespace detail {
// What an owner points to, which is an object of just this type.
template <class T> constexpr void must_be_owned()
{
    static_assert(!std::is_array<T>::value, "pup: an array behind a pointer does not know its length; keep a std::vector");
    static_assert(!std::is_polymorphic<T>::value, "pup: a pointer to a type with virtual functions does not say which type it points to");
    static_assert(std::is_void<T>::value == false, "pup: a pointer to void does not say which type it points to");
}
template <class T>
struct is_owned : std::integral_constant<bool, !std::is_array<T>::value && !std::is_polymorphic<T>::value && !std::is_void<T>::value> {};
} // namespace detail

template <class T, class D> struct of<std::unique_ptr<T, D>> {
    static constexpr bool is_default = std::is_same<D, std::default_delete<T>>::value;
    static void pup(er &p, std::unique_ptr<T, D> &value)
    {
        detail::must_be_owned<T>();
        static_assert(is_default, "pup: an owner with a deleter of its own does not say how to make its object; specialize tezgumi::pup::of");
        if constexpr (is_default && detail::is_owned<T>::value) {
            using object = typename std::remove_const<T>::type;
            detail::must_be_made<object>();
            bool is_there = value != nullptr;
            p(is_there);
            if (p.is_unpacking()) value.reset(is_there ? new object() : nullptr);
            if (is_there) p(const_cast<object &>(*value));
        }
    }
};

// By value: each pointer that is unpacked has an object of its own.
template <class T> struct of<std::shared_ptr<T>> {
    static void pup(er &p, std::shared_ptr<T> &value)
    {
        detail::must_be_owned<T>();
        if constexpr (detail::is_owned<T>::value) {
            using object = typename std::remove_const<T>::type;
            detail::must_be_made<object>();
            bool is_there = value != nullptr;
            p(is_there);
            if (!p.is_unpacking()) {
                if (is_there) p(const_cast<object &>(*value));
                return;
            }
            std::shared_ptr<object> made = is_there ? std::make_shared<object>() : nullptr;
            if (is_there) p(*made);
            value = std::move(made);
        }
    }
};

// How many bytes a value packs into. A pup that sizes or packs changes nothing, so a constant value will do.
template <class T> std::size_t size_of(const T &value)
{
    er p;
    p(const_cast<T &>(value));
    return p.size();
}

// Packs a value behind what is in these bytes. It is counted first, so that memory is taken once.
template <class T> void pack(const T &value, bytes &out)
{
    constexpr std::size_t few = 16384;
    const std::size_t start = out.size(), size = size_of(value);
    if (size > few) {
        if (size > out.capacity() - start) out.reserve(std::max(start + size, start * 2));
        er p = er::onto(out);
        p(const_cast<T &>(value));
        p.cut();
        if (out.size() - start != size) throw error("pup: a value packs into another number of bytes than it counted");
        return;
    }
    out.resize(start + size);
    er p = er::into(out.data() + start, size);
    p(const_cast<T &>(value));
    if (p.room() != 0) throw error("pup: a value packs into fewer bytes than it counted");
}

// Unpacks a value, which takes all of these bytes.
template <class T> void unpack(T &value, const std::uint8_t *from, std::size_t len)
{
    er p(from, len);
    p(value);
    if (p.left() != 0) throw error("pup: bytes are left over");
}

} // namespace pup
} // namespace tezgumi

#endif
