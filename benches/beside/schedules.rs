//! A yardstick for `charm_run --seed`: runs a workload on one thread, event by event, as a seed draws the events, in plain Rust
//! without proofs. It was written from docs/RUNS.md and docs/EVENTS.md.
//!
//!     schedules FILE [--seed S] [--limit N] [--letters-first] [--moves-first] [--stale-looks] [--starve P] [--events]
//!
//! It prints what charm_run prints, or with --events each event in a line.
//!
//! - `drawing`: the generator, what is enabled, and how an event is drawn.
//! - `world`: the PEs, and what each event does.
//! - `first_names`: of the cheapest names of the blocks the first ones.
#[expect(dead_code, reason = "a run prints neither the fence nor the loads of blocks")]
mod decision;
mod drawing;
mod first_names;
mod workload;
mod world;

use drawing::Bias;
use std::io::{self, Write};
use std::process::ExitCode;
use workload::Workload;
use world::World;

/// What is asked for.
struct Asked {
    path: String,
    seed: u64,
    limit: usize,
    bias: Bias,
    lists_events: bool,
}

impl Asked {
    fn read(mut words: impl Iterator<Item = String>) -> Option<Self> {
        let mut asked = Asked { path: words.next()?, seed: 0, limit: 1_000_000, bias: Bias::default(), lists_events: false };
        while let Some(word) = words.next() {
            match word.as_str() {
                "--seed" => asked.seed = words.next()?.parse().ok()?,
                "--limit" => asked.limit = words.next()?.parse().ok()?,
                "--letters-first" => asked.bias.letters_first = true,
                "--moves-first" => asked.bias.moves_first = true,
                "--stale-looks" => asked.bias.stale_looks = true,
                "--starve" => asked.bias.starved = Some(words.next()?.parse().ok()?),
                "--events" => asked.lists_events = true,
                _ => return None,
            }
        }
        Some(asked)
    }
}

fn print(world: &World, fault: Option<&str>, out: &mut impl Write) -> io::Result<()> {
    for (at, round) in world.rounds.iter().enumerate() {
        writeln!(out, "round {} bottleneck {} moved {}", at + 1, round.bottleneck, round.moved)?;
    }
    match fault {
        Some(word) => write!(out, "fault {word}")?,
        None => {
            write!(out, "sums")?;
            for sum in world.sums() {
                write!(out, " {sum}")?;
            }
        }
    }
    let (posted, executed) = world.account();
    writeln!(out, "\nposted {posted} executed {executed} held {}", posted - executed)
}

fn print_events(world: &World, out: &mut impl Write) -> io::Result<()> {
    world.steps.iter().try_for_each(|(event, _)| writeln!(out, "{event}"))
}

fn main() -> ExitCode {
    let Some(asked) = Asked::read(std::env::args().skip(1)) else {
        eprintln!(
            "usage: schedules FILE [--seed S] [--limit N] [--letters-first] [--moves-first] [--stale-looks] [--starve P] [--events]"
        );
        return ExitCode::from(2);
    };
    let Some(workload) = std::fs::read_to_string(&asked.path).ok().and_then(|text| Workload::parse(&text)) else {
        eprintln!("schedules: {}: no workload", asked.path);
        return ExitCode::from(3);
    };
    let mut world = World::new(&workload, asked.seed, &asked.bias);
    let fault = world.run(asked.limit);
    let mut out = io::BufWriter::with_capacity(65_536, io::stdout().lock());
    let done = if asked.lists_events { print_events(&world, &mut out) } else { print(&world, fault, &mut out) };
    match done.and_then(|()| out.flush()) {
        Ok(()) => ExitCode::SUCCESS,
        Err(_) => ExitCode::FAILURE,
    }
}
