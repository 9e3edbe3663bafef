//! Of all namings by which the fewest bytes move the first one, block by block: where several are cheapest a seed could not mean
//! the same everywhere otherwise.
use crate::decision::{Search, searched};

/// The first of the cheapest namings, by the costs of each block on each PE, row by row.
pub fn first_names(costs: &[i64], pes: usize) -> Vec<usize> {
    let mut search = searched(costs, pes);
    for block in 0..pes {
        let now = search.names[block];
        for pe in 0..now {
            if search.takes(block, pe) {
                break;
            }
        }
    }
    search.names
}

impl Search<'_> {
    /// No cheapest naming has this pair unless its cost is the sum of its prices.
    fn is_tight(&self, block: usize, pe: usize) -> bool {
        self.costs[block * self.pes + pe] == self.block_prices[block] + self.pe_prices[pe]
    }

    /// Gives the PE to this block, where those after it can pass PEs on so that each has one again. False: they can't.
    fn takes(&mut self, block: usize, pe: usize) -> bool {
        let holder = self.holders[pe];
        if holder < block || !self.is_tight(block, pe) {
            return false;
        }
        let free = self.names[block];
        let mut seen = vec![false; self.pes];
        seen[pe] = true;
        if !self.moves(block, holder, free, &mut seen) {
            return false;
        }
        (self.names[block], self.holders[pe]) = (pe, block);
        true
    }

    /// Finds another PE for a block after this first one: the free one, or one that its holder can leave.
    fn moves(&mut self, first: usize, block: usize, free: usize, seen: &mut [bool]) -> bool {
        for pe in 0..self.pes {
            if seen[pe] || !self.is_tight(block, pe) || pe != free && self.holders[pe] <= first {
                continue;
            }
            seen[pe] = true;
            if pe == free || self.moves(first, self.holders[pe], free, seen) {
                (self.names[block], self.holders[pe]) = (pe, block);
                return true;
            }
        }
        false
    }
}
