// The molecules of both programs: atoms on a torus of square cells, which push each other away where they are less than the side of a cell
// apart. They begin in a dense heap, which spreads. All sums are taken in an order that the cells say, so their bits are the same on any
// number of PEs.
#ifndef MOLECULES_HPP
#define MOLECULES_HPP

#include <algorithm>
#include <array>
#include <cmath>
#include <cstdint>
#include <cstring>
#include <initializer_list>
#include <utility>
#include <vector>

namespace molecules {

constexpr double time_step = 0.002, stiffness = 40;

struct atom {
    std::uint32_t id = 0;
    double x = 0, y = 0, speed_x = 0, speed_y = 0;
};
struct force {
    double x = 0, y = 0;
};
using atoms = std::vector<atom>;
using forces = std::vector<force>;

// The torus has `side` times `side` cells, each of side 1.
struct torus {
    std::uint32_t side = 3, count = 0, steps = 0;

    std::uint32_t cells() const { return side * side; }
    std::uint32_t cell(std::uint32_t row, std::uint32_t column) const { return row * side + column; }
    // The cell so many rows down and columns to the right, each -1, 0 or 1.
    std::uint32_t beside(std::uint32_t of, int down, int right) const
    {
        const std::uint32_t row = of / side, column = of % side;
        return cell((row + side + static_cast<std::uint32_t>(down)) % side, (column + side + static_cast<std::uint32_t>(right)) % side);
    }
};

// The pairs of a cell: itself, and four of its neighbors. In the other four pairs it is the second.
constexpr int pairs = 5, slots = 9;
constexpr std::array<std::array<int, 2>, pairs> offsets{{{0, 0}, {0, 1}, {1, -1}, {1, 0}, {1, 1}}};

// The atoms that begin in a cell: a heap around the middle of the torus. They have consecutive numbers, from `first` on.
inline std::uint32_t count_of(const torus &of, std::uint32_t cell)
{
    const double middle = 0.5 * of.side, y = cell / of.side + 0.5 - middle, x = cell % of.side + 0.5 - middle, wide = 0.12 * of.side;
    return static_cast<std::uint32_t>(of.count * std::exp(-(x * x + y * y) / (2 * wide * wide)));
}
inline void add_cell(const torus &of, std::uint32_t cell, std::uint32_t first, atoms &to)
{
    const std::uint32_t count = count_of(of, cell);
    for (std::uint32_t k = 0; k < count; k++) {
        // The fractional parts of multiples of two irrational numbers are spread evenly.
        const double a = std::fmod(0.5 + 0.7548776662466927 * (k + 1), 1), b = std::fmod(0.5 + 0.5698402909980532 * (k + 1), 1);
        to.push_back({first + k, cell % of.side + a, cell / of.side + b, 0, 0});
    }
}

inline bool push(const atom &one, const atom &other, double x, double y, force &by)
{
    const double to_x = one.x - (other.x + x), to_y = one.y - (other.y + y), apart = to_x * to_x + to_y * to_y;
    if (apart >= 1 || apart == 0) return false;
    const double far = std::sqrt(apart), pushes = stiffness * (1 - far) / far;
    by = {pushes * to_x, pushes * to_y};
    return true;
}

// What the atoms of pair `k` of a cell do to each other. Those of the second cell are taken on the near side of the torus. Returns how many
// distances were looked at.
inline std::uint64_t push_all(const torus &of, std::uint32_t cell, int k, const atoms &first, const atoms &second, forces &on_first, forces &on_second)
{
    on_first.assign(first.size(), {});
    on_second.assign(k == 0 ? 0 : second.size(), {});
    const int down = offsets[static_cast<std::size_t>(k)][0], right = offsets[static_cast<std::size_t>(k)][1];
    const int row = static_cast<int>(cell / of.side) + down, column = static_cast<int>(cell % of.side) + right, side = static_cast<int>(of.side);
    const double y = row < 0 ? -side : row >= side ? side : 0, x = column < 0 ? -side : column >= side ? side : 0;
    force by;
    for (std::size_t i = 0; i < first.size(); i++) {
        for (std::size_t j = k == 0 ? i + 1 : 0; j < second.size(); j++) {
            if (!push(first[i], second[j], x, y, by)) continue;
            forces &other = k == 0 ? on_first : on_second;
            on_first[i].x += by.x;
            on_first[i].y += by.y;
            other[j].x -= by.x;
            other[j].y -= by.y;
        }
    }
    return first.size() * second.size();
}

// Moves the atoms of a cell by the forces of its nine slots, in their order. Those that leave go to the list of the neighbor; the neighbor
// `3 * (down + 1) + right + 1` is that many rows down and columns to the right.
inline void move_all(const torus &of, std::uint32_t cell, const std::array<forces, slots> &by, atoms &mine, std::array<atoms, 9> &leave)
{
    for (atoms &one : leave) one.clear();
    std::size_t stay = 0;
    const double row = cell / of.side, column = cell % of.side;
    for (std::size_t i = 0; i < mine.size(); i++) {
        atom one = mine[i];
        for (const forces &slot : by) {
            one.speed_x += time_step * slot[i].x;
            one.speed_y += time_step * slot[i].y;
        }
        one.x += time_step * one.speed_x;
        one.y += time_step * one.speed_y;
        const int down = one.y < row ? -1 : one.y >= row + 1 ? 1 : 0, right = one.x < column ? -1 : one.x >= column + 1 ? 1 : 0;
        one.x = one.x < 0 ? one.x + of.side : one.x >= of.side ? one.x - of.side : one.x;
        one.y = one.y < 0 ? one.y + of.side : one.y >= of.side ? one.y - of.side : one.y;
        if (down == 0 && right == 0) mine[stay++] = one;
        else leave[static_cast<std::size_t>(3 * (down + 1) + right + 1)].push_back(one);
    }
    mine.resize(stay);
}
inline void sort(atoms &all)
{
    std::sort(all.begin(), all.end(), [](const atom &one, const atom &other) { return one.id < other.id; });
}

// What the atoms of a cell add to a number that the bits of all give, in whatever order they come.
inline std::uint64_t digest(const atoms &all)
{
    std::uint64_t sum = 0;
    for (const atom &one : all) {
        std::uint64_t bits[4];
        std::memcpy(bits, &one.x, sizeof bits);
        std::uint64_t mixed = 0xcbf29ce484222325 ^ one.id;
        for (std::uint64_t part : bits) mixed = (mixed ^ part) * 0x100000001b3;
        sum += mixed;
    }
    return sum;
}

} // namespace molecules

#endif
