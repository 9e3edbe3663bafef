//! Where the PEs report what their elements did, under one lock. Who completes a round decides it.
use crate::decision::{Chain, Decision};
use std::sync::Arc;

/// What is known of a round that was decided.
pub struct Round {
    pub bottleneck: u64,
    pub moved: u64,
    pub plan: Arc<Plan>,
}

/// Which elements are on which PE: as many blocks as PEs, and their names.
pub struct Plan {
    cuts: Vec<usize>,
    names: Vec<usize>,
}

impl Plan {
    pub fn place_of(&self, element: usize) -> usize {
        self.names[self.cuts[1..].partition_point(|&end| end <= element)]
    }
}

/// What an element reports.
pub struct Report {
    pub element: usize,
    pub load: u64,
    pub size: u32,
}

pub struct Board {
    pes: usize,
    chain: Chain,
    reported: usize,
    pub rounds: Vec<Round>,
}

impl Board {
    /// A board for elements that are where these places say.
    pub fn new(pes: usize, places: Vec<u32>) -> Self {
        let count = places.len();
        let chain = Chain { loads: vec![0; count], sizes: vec![0; count], places };
        Board { pes, chain, reported: 0, rounds: Vec::new() }
    }

    /// Takes reports of different elements, and decides the round where they complete it: then it is true.
    pub fn report(&mut self, reports: &mut Vec<Report>) -> bool {
        self.reported += reports.len();
        for Report { element, load, size } in reports.drain(..) {
            self.chain.loads[element] = load;
            self.chain.sizes[element] = size;
        }
        let is_complete = self.reported == self.chain.loads.len();
        if is_complete {
            self.decide();
        }
        is_complete
    }

    fn decide(&mut self) {
        let Decision { bottleneck, moved, cuts, names, .. } = Decision::of(&self.chain, self.pes);
        for (ends, &pe) in cuts.windows(2).zip(&names) {
            self.chain.places[ends[0]..ends[1]].fill(pe as u32);
        }
        self.rounds.push(Round { bottleneck, moved, plan: Arc::new(Plan { cuts, names }) });
        self.reported = 0;
    }
}
