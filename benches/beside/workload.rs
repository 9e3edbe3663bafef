//! What runs.

/// What runs: on so many PEs, so many rounds of chares with so much padding, and of each round the amounts.
pub struct Workload {
    pub pes: usize,
    pub pad: usize,
    pub chares: usize,
    pub rounds: Vec<Vec<u32>>,
}

impl Workload {
    /// What this text says, or `None` where it is no workload.
    pub fn parse(text: &str) -> Option<Self> {
        let mut lines = text.lines();
        let mut number = |word: &str| -> Option<usize> { lines.next()?.strip_prefix(word)?.trim_start().parse().ok() };
        let (pes, rounds) = (number("pes")?, number("rounds")?);
        let (pad, chares) = (number("pad")?, number("chares")?);
        let amounts = |line: &str| line.strip_prefix("amounts")?.split_whitespace().map(|word| word.parse().ok()).collect();
        let found: Vec<Vec<u32>> = lines.map(amounts).collect::<Option<_>>()?;
        let is_whole = found.len() == rounds && found.iter().all(|row| row.len() == chares) && (1..=256).contains(&pes);
        is_whole.then_some(Workload { pes, pad, chares, rounds: found })
    }
}
