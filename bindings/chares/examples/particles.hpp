// The particles of the Parallel Research Kernels (E. Georganas, R. Van der Wijngaart, T. Mattson, "Design and implementation of a parallel
// research kernel for assessing dynamic load-balancing capabilities", IPDPS 2016). Charges stand at the corners of a periodic grid, with one
// sign in even columns and the other in odd ones. A particle begins in the middle of a cell, and its charge is such that the charges around
// it take it a whole number of columns to the right in each step. So where each particle is after any number of steps is known beforehand.
#ifndef PARTICLES_HPP
#define PARTICLES_HPP

#include <cmath>
#include <cstdint>
#include <cstring>
#include <vector>

namespace particles {

// The grid has `side` times `side` cells. Particles fall off from column to column by the factor `falls`, move `2 * stride + 1` columns to
// the right and `rise` rows up in a step, and do that `steps` times.
struct setup {
    std::uint32_t side = 0, count = 0, stride = 0, rise = 1, steps = 0;
    double falls = 0.99;

    std::uint32_t columns_a_step() const { return 2 * stride + 1; }
};

struct particle {
    double x = 0, y = 0, speed_x = 0, speed_y = 0, charge = 0;
    double first_x = 0, first_y = 0;
};

inline double wrapped(double at, double side)
{
    at = std::fmod(at, side);
    return at < 0 ? at + side : at;
}

// The charge of the corners in a column.
inline double corner(std::uint32_t column) { return column % 2 == 0 ? 1 : -1; }

// How many particles begin in each column.
inline std::vector<std::uint32_t> counts(const setup &of)
{
    std::vector<std::uint32_t> all(of.side);
    const double whole = of.falls < 1 ? (1 - std::pow(of.falls, of.side)) / (1 - of.falls) : of.side;
    double share = of.count / whole, owed = 0;
    for (std::uint32_t &one : all) {
        owed += share;
        one = static_cast<std::uint32_t>(owed);
        owed -= one;
        share *= of.falls;
    }
    std::uint32_t sum = 0;
    for (std::uint32_t one : all) sum += one;
    if (!all.empty()) all.front() += of.count - sum; // what was lost by rounding
    return all;
}

// Those that begin in a column.
inline void add_column(const setup &of, std::uint32_t column, std::uint32_t count, std::vector<particle> &to)
{
    // In the middle of a cell both columns of corners are as far away: half the sum of their pulls on a charge of 1 takes it half a column.
    const double apart = 0.5 * 0.5 + 0.5 * 0.5, slope = 0.5 / std::sqrt(apart);
    const double charge = of.columns_a_step() / (2 * slope / apart);
    for (std::uint32_t k = 0; k < count; k++) {
        particle one;
        one.first_x = one.x = column + 0.5;
        one.first_y = one.y = static_cast<std::uint32_t>((column * std::uint64_t(7919) + k * std::uint64_t(104729)) % of.side) + 0.5;
        one.speed_y = of.rise;
        one.charge = corner(column) * charge;
        to.push_back(one);
    }
}

// The pull of a corner along its distance in x.
inline double pull(double x, double y, double charges)
{
    const double apart = x * x + y * y;
    return charges / apart * (x / std::sqrt(apart));
}

// One step of a particle.
inline void move(const setup &of, particle &one)
{
    const double column = std::floor(one.x), row = std::floor(one.y), x = one.x - column, y = one.y - row;
    const double left = corner(static_cast<std::uint32_t>(column)) * one.charge, right = -left;
    double push = pull(x, y, left) + pull(x, 1 - y, left);
    push -= pull(1 - x, y, right) + pull(1 - x, 1 - y, right);
    one.x = wrapped(one.x + one.speed_x + 0.5 * push, of.side);
    one.y = wrapped(one.y + one.speed_y, of.side);
    one.speed_x += push;
}

// Whether it is where it has to be after all steps.
inline bool is_right(const setup &of, const particle &one)
{
    const double x = wrapped(one.first_x + double(of.columns_a_step()) * of.steps, of.side);
    const double y = wrapped(one.first_y + double(of.rise) * of.steps, of.side);
    return std::fabs(one.x - x) < 1e-5 && std::fabs(one.y - y) < 1e-5;
}

// A number that the bits of all particles give, in whatever order they come.
inline std::uint64_t digest(const std::vector<particle> &all)
{
    std::uint64_t sum = 0;
    for (const particle &one : all) {
        std::uint64_t bits[4];
        std::memcpy(bits, &one.x, sizeof bits);
        std::uint64_t mixed = 0xcbf29ce484222325;
        for (std::uint64_t part : bits) mixed = (mixed ^ part) * 0x100000001b3;
        sum += mixed;
    }
    return sum;
}

} // namespace particles

#endif
