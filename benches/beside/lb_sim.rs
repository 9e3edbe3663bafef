//! A yardstick for `lb_sim`: reads a dump, decides, and prints the same text, in plain Rust without proofs.
//!
//!     lb_sim [--tolerance T] FILE
mod decision;
mod refinement;

use decision::{Chain, Decision, named};
use refinement::Refinement;
use std::fs::File;
use std::io::{self, Read, Write};
use std::process::ExitCode;

const ELEMENTS: u32 = 65_536;
const PES: u32 = 256;
const LOAD: u64 = (1 << 47) - 1;
const STATE_BYTES: u32 = 1 << 20;

/// A file, read in pieces.
struct Pieces {
    file: File,
    bytes: Vec<u8>,
    from: usize,
    to: usize,
}

impl Pieces {
    fn new(file: File) -> Self {
        Pieces { file, bytes: vec![0; 65_536], from: 0, to: 0 }
    }

    /// So many bytes at least, or more, that are there.
    fn at_least(&mut self, count: usize) -> io::Result<&[u8]> {
        while self.to - self.from < count {
            self.bytes.copy_within(self.from..self.to, 0);
            (self.from, self.to) = (0, self.to - self.from);
            match self.file.read(&mut self.bytes[self.to..])? {
                0 => return fault("the dump ends too early"),
                more => self.to += more,
            }
        }
        Ok(&self.bytes[self.from..self.to])
    }

    fn word(&mut self) -> io::Result<u32> {
        let word = word(self.at_least(4)?);
        self.from += 4;
        Ok(word)
    }

    /// Hands over whole rows of so many bytes, many at a time, until there were count.
    fn rows(&mut self, size: usize, mut count: usize, mut take: impl FnMut(&[u8])) -> io::Result<()> {
        while count > 0 {
            let there = self.at_least(size)?;
            let many = count.min(there.len() / size);
            take(&there[..many * size]);
            self.from += many * size;
            count -= many;
        }
        Ok(())
    }
}

fn word(bytes: &[u8]) -> u32 {
    u32::from_be_bytes([bytes[0], bytes[1], bytes[2], bytes[3]])
}

fn fault<T>(text: &str) -> io::Result<T> {
    Err(io::Error::new(io::ErrorKind::InvalidData, text))
}

/// The step, the number of PEs and the elements of a dump of either format. A recorded decision is not read.
fn read(file: File) -> io::Result<(u32, u32, Chain)> {
    let mut text = Pieces::new(file);
    let magic = text.word()?.to_be_bytes();
    let (step, pes, count) = (text.word()?, text.word()?, text.word()?);
    if !(1..=PES).contains(&pes) || count > ELEMENTS {
        return fault("too many PEs or elements, or none");
    }
    let count = count as usize;
    let mut chain = Chain {
        loads: Vec::with_capacity(count),
        sizes: Vec::with_capacity(count),
        places: Vec::with_capacity(count),
    };
    match &magic {
        b"LBD1" => text.rows(12, count, |rows| {
            chain.loads.extend(rows.chunks_exact(12).map(|row| u64::from(word(row))));
            chain.sizes.extend(rows.chunks_exact(12).map(|row| word(&row[4..])));
            chain.places.extend(rows.chunks_exact(12).map(|row| word(&row[8..])));
        })?,
        b"LBD2" => text.rows(16, count, |rows| {
            chain.loads.extend(rows.chunks_exact(16).map(|row| u64::from(word(row)) << 32 | u64::from(word(&row[4..]))));
            chain.sizes.extend(rows.chunks_exact(16).map(|row| word(&row[8..])));
            chain.places.extend(rows.chunks_exact(16).map(|row| word(&row[12..])));
        })?,
        _ => return fault("not LBD1 or LBD2"),
    }
    let is_past = chain.loads.iter().any(|&load| load > LOAD)
        || chain.sizes.iter().any(|&size| size > STATE_BYTES)
        || chain.places.iter().any(|&place| place >= pes);
    if is_past { fault("an element is out of its limits") } else { Ok((step, pes, chain)) }
}

/// So many thousandths above a bottleneck, rounded down.
fn limit(bottleneck: u64, tolerance: u32) -> u64 {
    bottleneck + (u128::from(bottleneck) * u128::from(tolerance) / 1000) as u64
}

/// The decision within a limit: the plan, where no cuts near the present ones move fewer bytes.
fn within(plan: Decision, chain: &Chain, pes: usize, limit: u64) -> Decision {
    let Some(Refinement { cuts, .. }) = Refinement::of(chain, &plan.sums, pes, limit) else {
        return plan;
    };
    let (names, moved) = named(chain, &cuts, pes);
    if plan.moved <= moved { plan } else { Decision { cuts, names, moved, ..plan } }
}

/// What lb_sim prints.
fn text(step: u32, pes: u32, chain: &Chain, decision: &Decision, limit: Option<u64>, out: &mut impl Write) -> io::Result<()> {
    writeln!(out, "step {step} procs {pes} elements {}", chain.loads.len())?;
    writeln!(out, "bottleneck {}", decision.bottleneck)?;
    write!(out, "fence")?;
    if decision.fence.is_empty() {
        write!(out, " zero")?;
    }
    for stop in &decision.fence {
        write!(out, " {stop}")?;
    }
    writeln!(out)?;
    if let Some(limit) = limit {
        writeln!(out, "limit {limit}")?;
    }
    for (block, (ends, pe)) in decision.cuts.windows(2).zip(&decision.names).enumerate() {
        let (from, to) = (ends[0], ends[1]);
        write!(out, "block {block} {from}..{to} load {}", decision.sums[to] - decision.sums[from])?;
        if from == to {
            writeln!(out, " pe -")?;
        } else {
            writeln!(out, " pe {pe}")?;
        }
    }
    writeln!(out, "moved {}", decision.moved)
}

fn run(path: &str, tolerance: Option<u32>) -> io::Result<()> {
    let (step, pes, chain) = read(File::open(path)?)?;
    let mut decision = Decision::of(&chain, pes as usize);
    let limit = tolerance.map(|tolerance| limit(decision.bottleneck, tolerance));
    if let Some(limit) = limit {
        decision = within(decision, &chain, pes as usize, limit);
    }
    let mut out = io::BufWriter::with_capacity(65_536, io::stdout().lock());
    text(step, pes, &chain, &decision, limit, &mut out)?;
    out.flush()
}

/// The file and the tolerance, in thousandths.
fn asked(words: &[String]) -> Option<(&str, Option<u32>)> {
    match words {
        [path] => Some((path, None)),
        [option, tolerance, path] if option == "--tolerance" => {
            let tolerance = tolerance.parse().ok().filter(|&tolerance| tolerance <= 1000)?;
            Some((path, Some(tolerance)))
        }
        _ => None,
    }
}

fn main() -> ExitCode {
    let words: Vec<String> = std::env::args().skip(1).collect();
    let Some((path, tolerance)) = asked(&words) else {
        eprintln!("usage: lb_sim [--tolerance T] FILE");
        return ExitCode::from(2);
    };
    match run(path, tolerance) {
        Ok(()) => ExitCode::SUCCESS,
        Err(error) => {
            eprintln!("lb_sim: {path}: {error}");
            ExitCode::FAILURE
        }
    }
}
