// pup::er: the bytes of each type by hand, what is unpacked again, and bytes that are no value.
#include "harness.hpp"

using tests::expect;

enum class color : std::uint16_t { red = 1, blue = 258 };

struct point {
    double x = 0, y = 0;
    void pup(pup::er &p) { p | x | y; }
    bool operator==(const point &other) const { return x == other.x && y == other.y; }
};

struct nested {
    point at;
    std::string name;
    std::vector<point> all;
    void pup(pup::er &p) { p(at, name, all); }
    bool operator==(const nested &other) const { return at == other.at && name == other.name && all == other.all; }
};

// A type of another library.
struct foreign {
    int a = 0;
};
template <> struct tezgumi::pup::of<foreign> {
    static void pup(er &p, foreign &value) { p(value.a); }
};

// A type whose values take no bytes.
struct nothing {
    void pup(pup::er &) {}
    bool operator==(const nothing &) const { return true; }
};

// A type that packs as it says, though it has keys.
struct keyed {
    using key_type = std::uint8_t;
    std::uint8_t key = 0;
    void pup(pup::er &p) { p(key); }
    bool operator==(const keyed &other) const { return key == other.key; }
};

// A type that counts other bytes than it packs.
struct liar {
    bool more = false;
    void pup(pup::er &p)
    {
        std::uint8_t byte = 0;
        if (p.is_sizing() != more) p(byte);
    }
};
static bool is_not_packed(bool more)
{
    liar one;
    one.more = more;
    try {
        pup::bytes bytes;
        pup::pack(one, bytes);
        return false;
    } catch (const pup::error &) {
        return true;
    }
}

// Constants, which may stand where nothing can be written to.
static const bool constant_bool = true;
static const color constant_color = color::blue;
static const std::vector<bool> constant_bools = {true, false};
static const std::pair<bool, color> constant_pair = {true, color::red};

static std::string hex(const pup::bytes &bytes)
{
    std::string text;
    for (std::uint8_t byte : bytes) {
        char two[3];
        std::snprintf(two, sizeof two, "%02x", byte);
        text += two;
    }
    return text;
}

// Whether a value has these bytes, as many as were counted, and comes out of them again; and from fewer or more it does not.
template <class T> static void trips(const std::string &name, const T &value, const std::string &bytes)
{
    pup::bytes packed;
    pup::pack(value, packed);
    T again{};
    pup::unpack(again, packed.data(), packed.size());
    expect(name, hex(packed) == bytes && pup::size_of(value) == packed.size() && again == value);
    bool refused = true;
    for (std::size_t len = 0; len < packed.size(); len++) {
        try {
            T other{};
            const pup::bytes less(packed.begin(), packed.begin() + static_cast<std::ptrdiff_t>(len));
            pup::unpack(other, less.data(), less.size());
            refused = false;
        } catch (const pup::error &) {
        }
    }
    packed.push_back(0);
    try {
        T other{};
        pup::unpack(other, packed.data(), packed.size());
        refused = false;
    } catch (const pup::error &) {
    }
    expect(name + ", cut short, and with a byte more", refused);
}

template <class T> static bool is_refused(const pup::bytes &bytes)
{
    try {
        T value{};
        pup::unpack(value, bytes.data(), bytes.size());
        return false;
    } catch (const pup::error &) {
        return true;
    }
}

// Owners of what they point to: a shared one too, each of which has its own object where it arrives.
static void test_owners()
{
    const auto first = std::make_shared<std::uint16_t>(std::uint16_t(5));
    const std::vector<std::shared_ptr<std::uint16_t>> three = {first, first, nullptr};
    pup::bytes packed;
    pup::pack(three, packed);
    std::vector<std::shared_ptr<std::uint16_t>> found;
    pup::unpack(found, packed.data(), packed.size());
    expect("shared pointers", hex(packed) == "0000000301000501000500" && found.size() == 3 && *found[0] == 5 && *found[1] == 5 && found[0] != found[1] && !found[2]);
    const std::shared_ptr<const point> constant = std::make_shared<point>(point{1, 2});
    std::shared_ptr<const point> again;
    packed.clear();
    pup::pack(constant, packed);
    pup::unpack(again, packed.data(), packed.size());
    expect("a pointer to what is constant", again && *again == *constant);
    std::priority_queue<int> heap, other;
    for (int i : {3, 9, 4, 1}) heap.push(i);
    packed.clear();
    pup::pack(heap, packed);
    pup::unpack(other, packed.data(), packed.size());
    std::vector<int> order;
    for (; !other.empty(); other.pop()) order.push_back(other.top());
    expect("a queue by rank", order == std::vector<int>{9, 4, 3, 1});
}

// Lists of numbers are copied in bulk, by blocks: of each size around a block the bytes are those of one number after another.
template <class T> static bool is_as_one_by_one(std::size_t count, bool is_long)
{
    std::vector<T> numbers(count), found = {1};
    for (std::size_t i = 0; i < count; i++) numbers[i] = static_cast<T>(i * 0x0102030405060708u + 1);
    pup::bytes bulk, slow;
    if (is_long) bulk.assign(20000, 7);
    const std::size_t start = bulk.size();
    pup::pack(numbers, bulk);
    pup::er counts(slow);
    auto size = static_cast<std::uint32_t>(count);
    counts(size);
    for (T &one : numbers) counts(one);
    pup::unpack(found, bulk.data() + start, bulk.size() - start);
    return found == numbers && bulk.size() - start == slow.size() && std::equal(slow.begin(), slow.end(), bulk.begin() + static_cast<std::ptrdiff_t>(start));
}
static void test_long_lists()
{
    bool good = true;
    for (std::size_t count : {0u, 1u, 3u, 7u, 511u, 512u, 513u, 1025u, 2049u, 4095u, 4097u, 20001u}) {
        for (bool is_long : {false, true}) {
            good = good && is_as_one_by_one<std::uint8_t>(count, is_long) && is_as_one_by_one<std::int16_t>(count, is_long) && is_as_one_by_one<float>(count, is_long) &&
                is_as_one_by_one<double>(count, is_long) && is_as_one_by_one<std::uint64_t>(count, is_long);
        }
    }
    expect("lists of numbers of any length", good);
    // A long value of structs and of lists in turn.
    std::vector<nested> all(300);
    for (std::size_t i = 0; i < all.size(); i++) all[i] = nested{{double(i), 1}, std::string(i, 'n'), std::vector<point>(i % 7)};
    pup::bytes packed;
    pup::pack(all, packed);
    std::vector<nested> again;
    pup::unpack(again, packed.data(), packed.size());
    expect("a long value", all == again && packed.size() == pup::size_of(all));
}

int main(int argc, char **argv)
{
    launch::program program(argc, argv);
    trips<std::uint8_t>("u8", 200, "c8");
    trips<char>("char", 'a', "61");
    trips<std::int16_t>("i16", -2, "fffe");
    trips<std::uint32_t>("u32", 0x01020304, "01020304");
    trips<std::int64_t>("i64", -1, "ffffffffffffffff");
    trips<float>("float", 1.0f, "3f800000");
    trips<double>("double", -2.0, "c000000000000000");
    trips<bool>("bool", true, "01");
    trips<color>("an enumeration", color::blue, "0102");
    trips<std::string>("a string", "abc", "00000003616263");
    trips<std::string>("an empty string", "", "00000000");
    trips<std::vector<std::uint32_t>>("a list of numbers", {1, 2}, "000000020000000100000002");
    trips<std::vector<std::uint8_t>>("bytes", {1, 2, 3}, "00000003010203");
    trips<std::vector<std::string>>("a list of strings", {"a", ""}, "00000002000000016100000000");
    trips<std::vector<bool>>("a list of bools", {true, false}, "000000020100");
    trips<std::array<std::uint16_t, 2>>("an array", {{1, 2}}, "00010002");
    trips<std::array<bool, 2>>("an array of bools", {{true, false}}, "0100");
    trips<std::pair<std::uint8_t, std::uint16_t>>("a pair", {1, 2}, "010002");
    trips<std::tuple<std::uint8_t, bool, std::uint8_t>>("a tuple", {1, true, 2}, "010102");
    trips<std::optional<std::uint8_t>>("no value", {}, "00");
    trips<std::optional<std::uint8_t>>("a value", 7, "0107");
    trips<std::vector<std::optional<std::pair<std::uint8_t, std::string>>>>("a list of such", {{}, {{1, "x"}}}, "000000020001010000000178");
    trips<point>("a struct", {1, 2}, "3ff00000000000004000000000000000");
    trips<keyed>("a struct with keys", {3}, "03");
    trips<nested>("structs in a struct", {{1, 2}, "n", {{0, 0}}}, "3ff00000000000004000000000000000000000016e0000000100000000000000000000000000000000");
    trips<std::deque<std::uint8_t>>("a deque", {1, 2}, "000000020102");
    trips<std::list<std::string>>("a linked list", {"a", "b"}, "00000002000000016100000001" "62");
    trips<std::set<std::int8_t>>("a set", {2, -1}, "00000002ff02");
    trips<std::multiset<std::uint8_t>>("a set with a key twice", {1, 1}, "000000020101");
    trips<std::unordered_set<std::uint8_t>>("a set without an order", {7}, "0000000107");
    trips<std::map<std::uint8_t, std::string>>("a map", {{2, "b"}, {1, "a"}}, "000000020100000001610200000001" "62");
    trips<std::unordered_map<std::uint16_t, bool>>("a map without an order", {{258, true}}, "00000001010201");
    trips<std::complex<float>>("a complex number", {1, 2}, "3f80000040000000");
    trips<std::forward_list<std::uint8_t>>("a list with one link", {1, 2}, "000000020102");
    trips<std::queue<std::uint8_t>>("a queue", std::queue<std::uint8_t>({1, 2}), "000000020102");
    trips<std::stack<std::uint8_t>>("a stack", std::stack<std::uint8_t>({1, 2}), "000000020102");
    trips<std::variant<std::uint8_t, std::string>>("a variant", std::string("a"), "000000010000000161");
    trips<std::variant<std::monostate, std::uint8_t>>("a variant of nothing", {}, "00000000");
    trips<std::chrono::duration<std::int16_t, std::milli>>("a duration", std::chrono::duration<std::int16_t, std::milli>(-2), "fffe");
    trips<std::chrono::time_point<std::chrono::system_clock, std::chrono::seconds>>(
        "a time", std::chrono::time_point<std::chrono::system_clock, std::chrono::seconds>(std::chrono::seconds(258)), "0000000000000102");
    trips<std::bitset<10>>("bits", std::bitset<10>("1000000011"), "0302");
    trips<std::bitset<0>>("no bits", std::bitset<0>(), "");
    test_owners();
    test_long_lists();
    trips<std::vector<nothing>>("a list of values without bytes", std::vector<nothing>(3), "00000003");
    std::unique_ptr<std::uint16_t> one_there(new std::uint16_t(5)), none_there, again_there(new std::uint16_t(6));
    pup::bytes packed;
    pup::pack(one_there, packed);
    pup::unpack(none_there, packed.data(), packed.size());
    pup::bytes packed_none;
    pup::pack(std::unique_ptr<std::uint16_t>(), packed_none);
    pup::unpack(again_there, packed_none.data(), packed_none.size());
    expect("pointers", hex(packed) == "010005" && none_there && *none_there == 5 && hex(packed_none) == "00" && !again_there);
    packed.clear();
    pup::pack(constant_bool, packed);
    pup::pack(constant_color, packed);
    pup::pack(constant_bools, packed);
    pup::pack(constant_pair, packed);
    expect("constants", hex(packed) == "010102" "000000020100" "010001" && pup::size_of(constant_pair) == 3);
    std::uint16_t items[2] = {1, 2}, others[2] = {0, 0};
    packed.clear();
    pup::er packer(packed);
    packer(items);
    pup::er unpacker(packed.data(), packed.size());
    unpacker(others);
    expect("an array of C", hex(packed) == "00010002" && others[0] == 1 && others[1] == 2);
    foreign one;
    one.a = 5;
    expect("a type of another library", pup::size_of(one) == 4);
    const double nan = std::nan("7");
    packed.clear();
    pup::pack(nan, packed);
    double again = 0;
    pup::unpack(again, packed.data(), packed.size());
    expect("a NaN keeps its bits", pup::detail::bits_of(nan) == pup::detail::bits_of(again));
    expect("a type that counts wrong", is_not_packed(true) && is_not_packed(false));
    std::vector<liar> many(20000);
    bool is_refused_too = false;
    for (liar &each : many) each.more = true;
    try {
        packed.clear();
        pup::pack(many, packed);
    } catch (const pup::error &) {
        is_refused_too = true;
    }
    expect("many of a type that counts wrong", is_refused_too);
    expect("a bool of 2", is_refused<bool>({2}));
    expect("a bit past the end", is_refused<std::bitset<10>>({0, 4}));
    expect("a type that a variant does not have", is_refused<std::variant<std::uint8_t, bool>>({0, 0, 0, 2, 1}));
    expect("a list that asks for much memory", is_refused<std::vector<double>>({0xff, 0xff, 0xff, 0xff, 0}));
    expect("a list of structs that does", is_refused<std::vector<nested>>({0xff, 0xff, 0xff, 0xff, 0}));
    expect("a list of lists that does", is_refused<std::vector<std::vector<double>>>({0, 0, 0, 1, 0xff, 0xff, 0xff, 0xff, 0}));
    expect("a map that does", is_refused<std::map<std::uint8_t, double>>({0xff, 0xff, 0xff, 0xff, 0}));
    expect("a list of values without bytes that does", is_refused<std::vector<nothing>>({0xff, 0xff, 0xff, 0xff}));
    expect("a set with a key twice that takes none", is_refused<std::set<std::uint8_t>>({0, 0, 0, 2, 1, 1}));
    expect("a map with a key twice", is_refused<std::map<std::uint8_t, std::uint8_t>>({0, 0, 0, 2, 1, 1, 1, 2}));
    expect("a string that does", is_refused<std::string>({0xff, 0xff, 0xff, 0xff, 0}));
    return tests::failed != 0;
}
