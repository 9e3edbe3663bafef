/* Names blocks by libtezgumi (tezgumi_name), and by a plain program: an auction with scaling, whose prices shortest augmenting
 * paths then begin with. benches/names compiles and calls it.
 *
 *     names PES hard|upside|shuffled|anywhere TURNS
 *
 * The tables are of bytes that blocks have on PEs. Hard: those of block b on PE p grow with (b + 1) (p + 1), so that all blocks want
 * the last PEs; upside has the blocks the other way round, and shuffled has blocks and PEs in a mixed order. Anywhere: elements
 * at random, a million of 64 to 1,023 bytes.
 *
 * Prints three numbers: milliseconds here, there, both the least of all turns, and 1 where both move as many bytes.
 */
#include <algorithm>
#include <chrono>
#include <cstdio>
#include <cstdlib>
#include <cstring>
#include <vector>
#include <tezgumi_parts.h>

using Number = uint64_t;

static double now()
{
    return std::chrono::duration<double, std::milli>(std::chrono::steady_clock::now().time_since_epoch()).count();
}

struct Table {
    size_t n;
    std::vector<Number> cost;
    const Number *row(size_t b) const { return &cost[b * n]; }
};

/* The auction: the discount of each PE. Rounds begin anew with a smaller step. */
class Auction {
public:
    explicit Auction(const Table &table) : t(table), discount(t.n), holder(t.n), waiting(t.n), left(40 * t.n) {}

    std::vector<Number> run()
    {
        Number step = *std::max_element(t.cost.begin(), t.cost.end()) / 1024 + 1;
        while (round(step) && step > 1) step = std::max<Number>(step / 3, 1);
        return discount;
    }

private:
    bool round(Number step)
    {
        size_t count = t.n;
        std::fill(holder.begin(), holder.end(), -1);
        for (size_t i = 0; i < t.n; i++) waiting[i] = (uint32_t)(i * 2654435761u % t.n);
        for (; count > 0; left--) {
            if (left == 0) return false;
            const uint32_t b = waiting[--count];
            const Number *row = t.row(b);
            size_t pe = 0;
            Number least = ~Number(0), second = least;
            for (size_t p = 0; p < t.n; p++) {
                const Number way = row[p] + discount[p];
                if (way >= second) continue;
                if (way < least) second = least, least = way, pe = p;
                else second = way;
            }
            discount[pe] += second - least + step;
            if (holder[pe] >= 0) waiting[count++] = (uint32_t)holder[pe];
            holder[pe] = (int32_t)b;
        }
        return true;
    }

    const Table &t;
    std::vector<Number> discount;
    std::vector<int32_t> holder;
    std::vector<uint32_t> waiting;
    size_t left;
};

/* Shortest augmenting paths from these discounts on: the cost of a cheapest naming. */
class Paths {
public:
    Paths(const Table &table, std::vector<Number> start)
        : t(table), discount(std::move(start)), price(t.n), distance(t.n), name(t.n), holder(t.n, -1), from(t.n), to_scan(t.n), scanned(t.n)
    {
    }

    Number run()
    {
        Number total = 0;
        for (size_t b = 0; b < t.n; b++) add(b);
        for (size_t b = 0; b < t.n; b++) total += t.row(b)[name[b]];
        return total;
    }

private:
    /* Brings PEs nearer by way of a block, and returns the place of the nearest; of those as near a free one. */
    size_t scan(size_t block, Number far, size_t count)
    {
        const Number *row = t.row(block);
        Number least = ~Number(0);
        size_t nearest = 0;
        bool free = false;
        for (size_t k = 0; k < count; k++) {
            const uint32_t p = to_scan[k];
            const Number way = far + row[p] + discount[p] - price[block];
            if (way < distance[p]) distance[p] = way, from[p] = (uint32_t)block;
            if (distance[p] > least || (distance[p] == least && (free || holder[p] >= 0))) continue;
            least = distance[p];
            nearest = k;
            free = holder[p] < 0;
        }
        return nearest;
    }

    void add(size_t root)
    {
        size_t count = t.n, done = 0;
        for (size_t p = 0; p < t.n; p++) to_scan[p] = (uint32_t)p, distance[p] = ~Number(0);
        size_t place = scan(root, 0, count);
        uint32_t pe = to_scan[place];
        while (holder[pe] >= 0) {
            to_scan.erase(to_scan.begin() + (long)place);
            to_scan.push_back(0);
            count--;
            scanned[done++] = pe;
            place = scan((size_t)holder[pe], distance[pe], count);
            pe = to_scan[place];
        }
        const Number reach = distance[pe];
        for (size_t k = 0; k < done; k++) {
            price[(size_t)holder[scanned[k]]] += reach - distance[scanned[k]];
            discount[scanned[k]] += reach - distance[scanned[k]];
        }
        price[root] += reach;
        for (uint32_t b = from[pe];; b = from[pe]) {
            const uint32_t before = name[b];
            name[b] = pe;
            holder[pe] = (int32_t)b;
            if (b == root) break;
            pe = before;
        }
    }

    const Table &t;
    std::vector<Number> discount, price, distance;
    std::vector<uint32_t> name;
    std::vector<int32_t> holder;
    std::vector<uint32_t> from, to_scan, scanned;
};

static uint64_t state = 1;

static uint32_t below(uint32_t n)
{
    state = state * UINT64_C(6364136223846793005) + UINT64_C(1442695040888963407);
    return (uint32_t)((state >> 33) % n);
}

static std::vector<size_t> order(size_t n, bool mixed)
{
    std::vector<size_t> found(n);
    for (size_t i = 0; i < n; i++) found[i] = i;
    for (size_t i = n; mixed && i > 1; i--) std::swap(found[i - 1], found[below((uint32_t)i)]);
    return found;
}

static std::vector<Number> held_bytes(size_t n, const char *kind)
{
    std::vector<Number> held(n * n);
    const bool mixed = !strcmp(kind, "shuffled"), upside = !strcmp(kind, "upside");
    const std::vector<size_t> blocks = order(n, mixed), pes = order(n, mixed);
    if (!strcmp(kind, "anywhere")) {
        for (size_t i = 0; i < 1000000; i++) held[i * n / 1000000 * n + below((uint32_t)n)] += 64 + below(960);
        return held;
    }
    for (size_t b = 0; b < n; b++)
        for (size_t p = 0; p < n; p++)
            held[(upside ? n - 1 - b : b) * n + p] = std::max<Number>((blocks[b] + 1) * (pes[p] + 1) * 1048576 / (n * n), 1);
    return held;
}

/* What the cheapest names move, by the plain program. A function that stays one, so that its instructions can be counted. */
[[gnu::noinline]] static Number moved_by_auction(const std::vector<Number> &held, size_t n)
{
    Table table{n, std::vector<Number>(n * n)};
    for (size_t b = 0; b < n; b++) {
        Number all = 0;
        for (size_t p = 0; p < n; p++) all += held[b * n + p];
        for (size_t p = 0; p < n; p++) table.cost[b * n + p] = all - held[b * n + p];
    }
    return Paths(table, Auction(table).run()).run();
}

int main(int count, char **words)
{
    if (count != 4) return fprintf(stderr, "names PES hard|upside|shuffled|anywhere TURNS\n"), 2;
    const size_t n = strtoul(words[1], nullptr, 10);
    const std::vector<Number> held = held_bytes(n, words[2]);
    double here = 1e300, there = 1e300;
    bool same = true;
    for (int turn = atoi(words[3]); turn > 0; turn--) {
        std::vector<uint32_t> names(n);
        std::vector<int64_t> block_prices(n), pe_prices(n);
        uint64_t moved = 0;
        double began = now();
        if (tezgumi_name(held.data(), n * n, (uint32_t)n, names.data(), n, block_prices.data(), n, pe_prices.data(), n, &moved))
            return fprintf(stderr, "names: not named\n"), 1;
        here = std::min(here, now() - began);
        if (tezgumi_check_names(held.data(), n * n, (uint32_t)n, names.data(), n, block_prices.data(), n, pe_prices.data(), n, moved))
            return fprintf(stderr, "names: not right\n"), 1;
        began = now();
        const Number cost = moved_by_auction(held, n);
        there = std::min(there, now() - began);
        same = same && cost == moved;
    }
    printf("%.1f %.1f %d\n", here, there, same);
}
