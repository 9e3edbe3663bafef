//! How the next event is drawn, as crates/schedules/README.md says.

/// SplitMix64 (Steele, Lea and Flood, OOPSLA 2014).
struct Numbers {
    state: u64,
}

impl Numbers {
    fn next(&mut self) -> u64 {
        self.state = self.state.wrapping_add(0x9e37_79b9_7f4a_7c15);
        let y = (self.state ^ (self.state >> 30)).wrapping_mul(0xbf58_476d_1ce4_e5b9);
        let z = (y ^ (y >> 27)).wrapping_mul(0x94d0_49bb_1331_11eb);
        z ^ (z >> 31)
    }

    fn below(&mut self, bound: u64) -> u64 {
        (u128::from(self.next()) * u128::from(bound) >> 64) as u64
    }
}

/// How many words of a set are counted together.
const BLOCK: usize = 16;

/// Numbers below a bound, a bit for each.
pub struct Set {
    words: Vec<u64>,
    /// How many numbers each block of words has.
    blocks: Vec<u64>,
    len: u64,
}

impl Set {
    pub fn new(bound: usize) -> Self {
        let words = bound.div_ceil(64);
        Set { words: vec![0; words], blocks: vec![0; words.div_ceil(BLOCK)], len: 0 }
    }

    pub fn put(&mut self, number: usize, is_in: bool) {
        let at = number / 64;
        let bit = 1 << (number % 64);
        if (self.words[at] & bit != 0) != is_in {
            self.words[at] ^= bit;
            let block = &mut self.blocks[at / BLOCK];
            (*block, self.len) = if is_in { (*block + 1, self.len + 1) } else { (*block - 1, self.len - 1) };
        }
    }

    /// The number that has so many others before it.
    fn nth(&self, before: u64) -> usize {
        let (mut at, mut left) = (0, before);
        while self.blocks[at / BLOCK] <= left {
            left -= self.blocks[at / BLOCK];
            at += BLOCK;
        }
        loop {
            let ones = u64::from(self.words[at].count_ones());
            if left < ones {
                let rest = (0..left).fold(self.words[at], |rest, _| rest & (rest - 1));
                return at * 64 + rest.trailing_zeros() as usize;
            }
            left -= ones;
            at += 1;
        }
    }
}

/// The kinds of events, in the order in which they are drawn from.
#[derive(Clone, Copy, PartialEq, Eq)]
pub enum Kind {
    Look,
    Flush,
    Deliver,
    Act,
    Report,
    Element,
    Decide,
}

const KINDS: [Kind; 7] = [Kind::Look, Kind::Flush, Kind::Deliver, Kind::Act, Kind::Report, Kind::Element, Kind::Decide];

/// What is drawn more often than the rest, or less.
#[derive(Default)]
pub struct Bias {
    pub letters_first: bool,
    pub moves_first: bool,
    pub stale_looks: bool,
    pub starved: Option<usize>,
}

impl Bias {
    fn weight(&self, kind: Kind) -> u64 {
        let by = |is_on: bool| if is_on { 16 } else { 1 };
        match kind {
            Kind::Look => by(self.letters_first) * by(self.stale_looks),
            Kind::Flush | Kind::Deliver | Kind::Act => by(self.letters_first),
            Kind::Report | Kind::Element | Kind::Decide => by(self.moves_first),
        }
    }
}

/// What is drawn from: the generator, the weight of each kind, and what is enabled of it: PEs, elements, and 0 for a decision.
pub struct Drawing {
    numbers: Numbers,
    weights: [u64; 7],
    pub starved: Option<usize>,
    enabled: [Set; 7],
}

/// How often an event of the PE that is starved is drawn before it happens.
pub const DRAWS: usize = 16;

impl Drawing {
    pub fn new(seed: u64, bias: &Bias, pes: usize, elements: usize) -> Self {
        let bound = |kind| match kind {
            Kind::Element => elements,
            Kind::Decide => 1,
            _ => pes,
        };
        Drawing {
            numbers: Numbers { state: seed },
            weights: KINDS.map(|kind| bias.weight(kind)),
            starved: bias.starved,
            enabled: KINDS.map(|kind| Set::new(bound(kind))),
        }
    }

    pub fn put(&mut self, kind: Kind, number: usize, is_enabled: bool) {
        self.enabled[kind as usize].put(number, is_enabled);
    }

    /// Draws an event, or finds that none is enabled.
    pub fn draw(&mut self) -> Option<(Kind, usize)> {
        let shares = [0, 1, 2, 3, 4, 5, 6].map(|kind: usize| self.weights[kind] * self.enabled[kind].len);
        let total = shares.iter().sum();
        if total == 0 {
            return None;
        }
        let mut left = self.numbers.below(total);
        for (kind, share) in KINDS.into_iter().zip(shares) {
            if left < share {
                return Some((kind, self.enabled[kind as usize].nth(left / self.weights[kind as usize])));
            }
            left -= share;
        }
        unreachable!("a number below the sum of the shares")
    }
}
