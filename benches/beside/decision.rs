//! The decision that Tezgumi takes, in plain Rust without proofs: the least division of a chain of elements into as many
//! blocks as there are PEs, a fence that shows that it is least, and the cheapest names of the blocks.
//!
//! The methods are those of the crates: running sums and bisection by exact walks, and shortest augmenting paths.

/// A chain of elements and where each is.
#[derive(Default)]
pub struct Chain {
    pub loads: Vec<u64>,
    /// Packed sizes in bytes.
    pub sizes: Vec<u32>,
    pub places: Vec<u32>,
}

pub struct Decision {
    pub bottleneck: u64,
    /// The ends of the blocks, with a 0 before them.
    pub cuts: Vec<usize>,
    /// Empty where the bottleneck is 0.
    pub fence: Vec<usize>,
    /// The PE of each block.
    pub names: Vec<usize>,
    /// The bytes that move.
    pub moved: u64,
    /// Running sums of the loads.
    pub sums: Vec<u64>,
}

/// What finds the PE of each block, by what each would cost, row by row.
type Names = fn(&[i64], usize) -> Vec<usize>;

impl Decision {
    /// The decision for so many PEs.
    pub fn of(chain: &Chain, pes: usize) -> Self {
        Decision::named_by(names, chain, pes)
    }

    /// The same, with the blocks named so.
    pub fn named_by(names: Names, chain: &Chain, pes: usize) -> Self {
        let sums = running_sums(&chain.loads);
        let bottleneck = least_bottleneck(&chain.loads, &sums, pes);
        let cuts = cut(&sums, pes, bottleneck);
        let fence = fence(&sums, pes, bottleneck);
        let (names, moved) = by(names, chain, &cuts, pes);
        Decision { bottleneck, cuts, fence, names, moved, sums }
    }
}

/// The cheapest names of these blocks, and the bytes that move.
pub fn named(chain: &Chain, cuts: &[usize], pes: usize) -> (Vec<usize>, u64) {
    by(names, chain, cuts, pes)
}

fn by(names: Names, chain: &Chain, cuts: &[usize], pes: usize) -> (Vec<usize>, u64) {
    let costs = costs(chain, cuts, pes);
    let names = names(&costs, pes);
    let moved = names.iter().enumerate().map(|(block, &pe)| costs[block * pes + pe] as u64).sum();
    (names, moved)
}

fn running_sums(loads: &[u64]) -> Vec<u64> {
    let mut sums = vec![0; loads.len() + 1];
    let mut sum = 0;
    for (place, &load) in sums[1..].iter_mut().zip(loads) {
        sum += load;
        *place = sum;
    }
    sums
}

/// What a walk for a limit finds: the greatest load of a block where all elements fit into the blocks, or else the least
/// limit at which it would have gone further.
enum Walk {
    Fits(u64),
    Needs(u64),
}

/// Fills block by block up to the limit, from the left. Each end is found by binary search.
fn walk(sums: &[u64], pes: usize, limit: u64) -> Walk {
    let last = sums.len() - 1;
    let (mut at, mut greatest, mut needs) = (0, 0, u64::MAX);
    for _ in 0..pes {
        let start = sums[at];
        at += sums[at + 1..].partition_point(|&sum| sum - start <= limit);
        greatest = greatest.max(sums[at] - start);
        if at == last {
            return Walk::Fits(greatest);
        }
        needs = needs.min(sums[at + 1] - start);
    }
    Walk::Needs(needs)
}

fn least_bottleneck(loads: &[u64], sums: &[u64], pes: usize) -> u64 {
    let total = sums[loads.len()];
    let average = total.div_ceil(pes as u64);
    let heaviest = loads.iter().copied().max().unwrap_or(0);
    let mut low = average.max(heaviest);
    // Blocks that are filled past the average, the last element of each included, hold everything.
    let mut high = average + heaviest;
    match walk(sums, pes, low) {
        Walk::Fits(_) => return low,
        Walk::Needs(needs) => low = needs,
    }
    while low < high {
        let middle = low + (high - low) / 2;
        match walk(sums, pes, middle) {
            Walk::Fits(greatest) => high = greatest,
            Walk::Needs(needs) => low = needs,
        }
    }
    high
}

/// Each block but the last is as long as the bottleneck lets it be.
fn cut(sums: &[u64], pes: usize, bottleneck: u64) -> Vec<usize> {
    let mut cuts = Vec::with_capacity(pes + 1);
    let mut at = 0;
    cuts.push(at);
    for _ in 0..pes {
        let start = sums[at];
        at += sums[at + 1..].partition_point(|&sum| sum - start <= bottleneck);
        cuts.push(at);
    }
    cuts
}

/// From each stop to the next, both included, the elements weigh the bottleneck or more, as few as can be.
fn fence(sums: &[u64], pes: usize, bottleneck: u64) -> Vec<usize> {
    if bottleneck == 0 {
        return Vec::new();
    }
    let mut stops = Vec::with_capacity(pes + 1);
    let mut at = 0;
    stops.push(at);
    for _ in 0..pes {
        let start = sums[at];
        at += sums[at + 1..].partition_point(|&sum| sum - start < bottleneck);
        stops.push(at);
    }
    stops
}

/// Row by row, of each block the bytes that would move to each PE.
fn costs(chain: &Chain, cuts: &[usize], pes: usize) -> Vec<i64> {
    let mut costs = vec![0; pes * pes];
    for (block, row) in costs.chunks_exact_mut(pes).enumerate() {
        let part = cuts[block]..cuts[block + 1];
        let mut bytes = 0;
        for (&size, &place) in chain.sizes[part.clone()].iter().zip(&chain.places[part]) {
            bytes += i64::from(size);
            row[place as usize] -= i64::from(size);
        }
        row.iter_mut().for_each(|cost| *cost += bytes);
    }
    costs
}

const NONE: usize = usize::MAX;

/// A PE that no way has gone through yet: its distance from the block that is to be named, and the block before it on the way.
#[derive(Clone, Copy)]
struct Near {
    distance: i64,
    price: i64,
    pe: u32,
    from: u32,
    is_free: bool,
}

/// The search for the names: prices of blocks and PEs, which no cost undercuts, the block of each PE and the PE of each block.
pub struct Search<'a> {
    pub costs: &'a [i64],
    pub pes: usize,
    pub block_prices: Vec<i64>,
    pub pe_prices: Vec<i64>,
    pub holders: Vec<usize>,
    pub names: Vec<usize>,
    to_scan: Vec<Near>,
    scanned: Vec<Near>,
    /// The block before each PE on a way.
    from: Vec<usize>,
}

impl Search<'_> {
    /// Names the block by the shortest way to a PE that is free.
    fn name(&mut self, root: usize) {
        self.to_scan.clear();
        self.to_scan.extend(self.pe_prices.iter().zip(&self.holders).enumerate().map(|(pe, (&price, &holder))| {
            Near { distance: i64::MAX, price, pe: pe as u32, from: 0, is_free: holder == NONE }
        }));
        self.scanned.clear();
        let (mut block, mut so_far) = (root, 0);
        let free = loop {
            let nearest = self.nearest(block, so_far);
            let near = self.to_scan.swap_remove(nearest);
            let pe = near.pe as usize;
            so_far = near.distance;
            self.from[pe] = near.from as usize;
            if near.is_free {
                break pe;
            }
            self.scanned.push(near);
            block = self.holders[pe];
        };
        self.change_prices(root, so_far);
        self.hand_on(root, free);
    }

    /// Brings all PEs nearer that are nearer by this block, and finds the nearest, a free one before others.
    fn nearest(&mut self, block: usize, so_far: i64) -> usize {
        let row = &self.costs[block * self.pes..][..self.pes];
        let base = so_far - self.block_prices[block];
        let (mut best, mut least, mut is_free) = (0, i64::MAX, false);
        for (at, near) in self.to_scan.iter_mut().enumerate() {
            let distance = base + row[near.pe as usize] - near.price;
            if distance < near.distance {
                near.distance = distance;
                near.from = block as u32;
            }
            if near.distance < least || (near.distance == least && near.is_free && !is_free) {
                (best, least, is_free) = (at, near.distance, near.is_free);
            }
        }
        best
    }

    fn change_prices(&mut self, root: usize, length: i64) {
        self.block_prices[root] += length;
        for near in &self.scanned {
            let (pe, by) = (near.pe as usize, length - near.distance);
            self.pe_prices[pe] -= by;
            self.block_prices[self.holders[pe]] += by;
        }
    }

    /// Hands PEs on along the way: each block on it takes the PE after it, and leaves the one that it had to the block before.
    fn hand_on(&mut self, root: usize, free: usize) {
        let mut taken = free;
        loop {
            let block = self.from[taken];
            self.holders[taken] = block;
            let left = std::mem::replace(&mut self.names[block], taken);
            if block == root {
                return;
            }
            taken = left;
        }
    }
}

/// The PE of each block, so that the fewest bytes move.
fn names(costs: &[i64], pes: usize) -> Vec<usize> {
    searched(costs, pes).names
}

/// The search for the names, at its end.
pub fn searched(costs: &[i64], pes: usize) -> Search<'_> {
    let mut search = Search {
        costs,
        pes,
        block_prices: vec![0; pes],
        pe_prices: vec![0; pes],
        holders: vec![NONE; pes],
        names: vec![NONE; pes],
        to_scan: Vec::with_capacity(pes),
        scanned: Vec::with_capacity(pes),
        from: vec![0; pes],
    };
    for block in 0..pes {
        search.name(block);
    }
    search
}
