//! A yardstick for `charm_run`: runs a workload over a thread for each PE, in plain Rust without proofs, over crossbeam's
//! queues. Each element keeps a journal of the letters that it has executed, with their bodies, as charm_run does; or none.
//!
//!     charm_run [--no-journal] FILE
//!
//! - `run`: what the threads share, and a whole run.
//! - `pe`: a PE, its elements, and what it does in a turn.
//! - `board`: where the PEs report, and each round is decided.
//! - `workload`: what runs.
mod board;
#[expect(dead_code, reason = "a run prints neither the fence nor the loads of blocks")]
mod decision;
mod pe;
mod run;
mod workload;

use std::io::{self, Write};
use std::process::ExitCode;
use workload::Workload;

fn print(outcome: &run::Outcome, out: &mut impl Write) -> io::Result<()> {
    for (at, round) in outcome.rounds.iter().enumerate() {
        writeln!(out, "round {} bottleneck {} moved {}", at + 1, round.bottleneck, round.moved)?;
    }
    write!(out, "sums")?;
    for sum in &outcome.sums {
        write!(out, " {sum}")?;
    }
    writeln!(out, "\nposted {} executed {} held {}", outcome.posted, outcome.executed, outcome.posted - outcome.executed)
}

fn main() -> ExitCode {
    let words: Vec<String> = std::env::args().skip(1).collect();
    let (path, keeps_journal) = match words.iter().map(String::as_str).collect::<Vec<_>>()[..] {
        [path] => (path, true),
        ["--no-journal", path] => (path, false),
        _ => {
            eprintln!("usage: charm_run [--no-journal] FILE");
            return ExitCode::from(2);
        }
    };
    let Some(workload) = std::fs::read_to_string(path).ok().and_then(|text| Workload::parse(&text)) else {
        eprintln!("charm_run: {path}: no workload");
        return ExitCode::from(3);
    };
    let outcome = run::run(&workload, keeps_journal);
    let mut out = io::BufWriter::with_capacity(65_536, io::stdout().lock());
    match print(&outcome, &mut out).and_then(|()| out.flush()) {
        Ok(()) => ExitCode::SUCCESS,
        Err(_) => ExitCode::FAILURE,
    }
}
