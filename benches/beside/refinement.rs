//! Cuts within a limit that move the fewest bytes where the PEs keep the order in which they stand, in plain Rust without
//! proofs, and heights that show that none move fewer.
//!
//! The methods are those of the crates: a shortest path through the cuts, layer by layer, each between two bounds.

use crate::decision::Chain;
use std::ops::Range;

/// Places from which on a height is greater, each with the rise.
pub type Steps = Vec<(u32, u64)>;

/// A height that no cuts reach.
const NONE: u64 = 1 << 62;

pub struct Refinement {
    /// The ends of the blocks, with a 0 before them: of those that move the fewest bytes the nearest to the present ones.
    pub cuts: Vec<usize>,
    /// For each block, what has moved at least where it begins. The proof, which is not printed.
    #[allow(dead_code)]
    pub heights: Vec<Steps>,
}

impl Refinement {
    /// The refinement of a chain with these running sums, or `None` where the elements of some PE do not stand together.
    pub fn of(chain: &Chain, sums: &[u64], pes: usize, limit: u64) -> Option<Self> {
        let order = Order::of(&chain.places, pes)?;
        let starts = least_starts(sums, limit);
        let heights = heights(chain, &order, &starts);
        let cuts = cuts(&heights, &order.present, &starts);
        Some(Refinement { cuts, heights })
    }
}

/// How the PEs stand along the chain, those without elements behind the others.
struct Order {
    pes: Vec<u32>,
    /// Where the elements of each begin, and the end of the chain.
    present: Vec<usize>,
}

impl Order {
    fn of(places: &[u32], pes: usize) -> Option<Self> {
        let mut order = Order { pes: Vec::with_capacity(pes), present: Vec::with_capacity(pes + 1) };
        let mut stands = vec![false; pes];
        let mut at = 0;
        for run in places.chunk_by(|one, next| one == next) {
            if std::mem::replace(&mut stands[run[0] as usize], true) {
                return None;
            }
            order.pes.push(run[0]);
            order.present.push(at);
            at += run.len();
        }
        order.pes.extend((0..pes as u32).filter(|&pe| !stands[pe as usize]));
        order.present.resize(pes + 1, at);
        Some(order)
    }
}

/// For each place the least start of a block within the limit that ends there.
fn least_starts(sums: &[u64], limit: u64) -> Vec<u32> {
    let mut start = 0;
    let least = sums.iter().map(|&sum| {
        while sum - sums[start] > limit {
            start += 1;
        }
        start as u32
    });
    least.collect()
}

/// The first place of each block's row: as far as blocks within the limit reach, but no farther than the present cut.
fn first_places(starts: &[u32], present: &[usize]) -> Vec<usize> {
    let mut first = vec![0; present.len() - 1];
    for block in 1..first.len() {
        let from = first[block - 1];
        first[block] = from + starts[from + 1..=present[block]].partition_point(|&start| start as usize <= from);
    }
    first
}

/// The last place of each block's row: the least start before that of the next block, but no nearer than the present cut.
fn last_places(starts: &[u32], present: &[usize]) -> Vec<usize> {
    let mut last = present.to_vec();
    for block in (0..last.len() - 1).rev() {
        last[block] = last[block].max(starts[last[block + 1]] as usize);
    }
    last
}

/// The heights of all blocks. One row is written over for each of them, from its last place to its first.
fn heights(chain: &Chain, order: &Order, starts: &[u32]) -> Vec<Steps> {
    let (first, last) = (first_places(starts, &order.present), last_places(starts, &order.present));
    let mut row = vec![NONE; starts.len()];
    row[0] = 0;
    let mut heights = Vec::with_capacity(order.pes.len());
    heights.push(vec![(1, NONE)]);
    for block in 1..order.pes.len() {
        let cut = Cut {
            from: order.pes[block - 1],
            to: order.pes[block],
            least: first[block - 1],
            first: first[block],
            present: order.present[block],
            last: last[block],
        };
        cut.write(chain, starts, &mut row);
        heights.push(steps(&row[..=cut.last], cut.first));
    }
    heights
}

/// The cut between the block of one PE and that of another.
struct Cut {
    from: u32,
    to: u32,
    /// The first place of the row of the block before it.
    least: usize,
    /// The first and the last place of the row of the block behind it, and where it is at present.
    first: usize,
    present: usize,
    last: usize,
}

impl Cut {
    /// Writes the row of the block behind this cut over that of the block before it: at each place the least that it takes to
    /// cut there or farther on. No start lies behind its end, so each number is read before it is written over.
    fn write(&self, chain: &Chain, starts: &[u32], row: &mut [u64]) {
        let mut cost: u64 = elements(chain, self.present..self.last).map(|element| held(element, self.to)).sum();
        let mut least = row[self.least.max(starts[self.last] as usize)] + cost;
        row[self.last] = least;
        let places = self.first..self.last;
        let before = places.clone().zip(elements(chain, places.clone())).zip(&starts[places]);
        for ((place, element), &start) in before.rev() {
            cost = cost + held(element, self.from) - held(element, self.to);
            least = least.min(row[self.least.max(start as usize)] + cost);
            row[place] = least;
        }
    }
}

/// The sizes and places of elements of a chain.
fn elements(chain: &Chain, range: Range<usize>) -> impl DoubleEndedIterator<Item = (u32, u32)> + ExactSizeIterator {
    chain.sizes[range.clone()].iter().copied().zip(chain.places[range].iter().copied())
}

/// The bytes of an element that stand on a PE.
fn held((size, place): (u32, u32), pe: u32) -> u64 {
    if place == pe { u64::from(size) } else { 0 }
}

/// The steps of a row from its first place on. Before that it is level.
fn steps(row: &[u64], first: usize) -> Steps {
    let mut steps = Vec::new();
    if row[first] > 0 {
        steps.push((0, row[first]));
    }
    let rises = row[first..].windows(2).map(|heights| heights[1] - heights[0]);
    steps.extend((first as u32 + 1..).zip(rises).filter(|&(_, rise)| rise > 0));
    steps
}

/// The cuts, read off the heights from the last block to the first: each as far on as its level goes, up to the present one.
fn cuts(heights: &[Steps], present: &[usize], starts: &[u32]) -> Vec<usize> {
    let mut cuts = vec![0; present.len()];
    cuts[heights.len()] = starts.len() - 1;
    for block in (1..heights.len()).rev() {
        let low = starts[cuts[block + 1]] as usize;
        let far = present[block].max(low);
        let rise = heights[block].partition_point(|&(place, _)| place as usize <= low);
        cuts[block] = heights[block].get(rise).map_or(far, |&(place, _)| far.min(place as usize - 1));
    }
    cuts
}
