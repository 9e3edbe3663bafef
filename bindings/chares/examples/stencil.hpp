// The plate of both programs: cells that take the mean of their neighbors, and a hot disc that wanders over them in a circle. A cell of the
// disc is heated in many small parts, so it is far more work than another one.
#ifndef STENCIL_HPP
#define STENCIL_HPP

#include <cmath>
#include <cstdint>
#include <cstring>
#include <initializer_list>

namespace stencil {

// The plate has `side` times `side` cells. The disc has the radius `side / 8`, and comes round once in `period` steps.
struct plate {
    std::uint32_t side = 0, steps = 0, period = 1, parts = 0;

    bool is_hot(std::uint32_t row, std::uint32_t column, std::uint32_t step) const
    {
        const double turn = 6.283185307179586 * (step % period) / period, half = 0.5 * side;
        const double y = row + 0.5 - half - 0.25 * side * std::sin(turn), x = column + 0.5 - half - 0.25 * side * std::cos(turn);
        return x * x + y * y < side * (side / 64.0);
    }
    // A cell after a step. Outside of the plate it is 0.
    double next(bool hot, double left, double right, double up, double down) const
    {
        double heat = 0.25 * ((left + right) + (up + down));
        if (hot) {
            for (std::uint32_t part = 0; part < parts; part++) heat += 0.00390625 * (1 - heat);
        }
        return heat;
    }
};

// What a cell adds to a number that the bits of all cells give, in whatever order they come.
inline std::uint64_t digest(std::uint32_t row, std::uint32_t column, double heat)
{
    std::uint64_t bits;
    std::memcpy(&bits, &heat, sizeof bits);
    std::uint64_t mixed = 0xcbf29ce484222325;
    for (std::uint64_t part : {std::uint64_t(row), std::uint64_t(column), bits}) mixed = (mixed ^ part) * 0x100000001b3;
    return mixed;
}

} // namespace stencil

#endif
