//! A yardstick for reductions, in plain Rust without proofs: each element contributes a double, all get their sum, and contribute again,
//! many times in a row. The parts go along the tree of the indices, and are added in the order of the indices.
//!
//!     sums [--elements N] [--pes P] [--times K] [--journal]
//!
//! What an element contributes depends on all sums before. It prints how many sums there were, and the bits of the last one.
//! `benches/programs/sums` is the same in Rattle.
mod array;
mod asked;
#[expect(dead_code, reason = "nobody asks for the bottleneck of a round")]
mod board;
#[expect(dead_code, reason = "a run prints neither the fence nor the loads of blocks")]
mod decision;

use array::{Chare, Effect, Here, Posts};
use std::process::ExitCode;

/// The share of a sum that is added to what an element contributes next.
const SHARE: f64 = 0.000_001;

struct Adder {
    number: f64,
    last: f64,
    left: usize,
}

impl Adder {
    fn opening(index: usize, times: usize) -> Self {
        Adder { number: 1.0 / (index as f64 + 1.0), last: 0.0, left: times }
    }

    /// It contributes, if it is to, or has finished.
    fn contributes(&self) -> Effect {
        let finished = self.left == 0;
        Effect { units: 1, finished, contribution: (!finished).then_some(self.number), ..Effect::default() }
    }
}

impl Chare for Adder {
    type Message = u8;

    fn on_resume(&mut self, _here: Here, _posts: &mut Posts<u8>) -> Effect {
        self.contributes()
    }

    fn on_message(&mut self, _here: Here, _message: &u8, _posts: &mut Posts<u8>) -> Effect {
        Effect::default()
    }

    fn on_result(&mut self, _here: Here, value: f64, _posts: &mut Posts<u8>) -> Effect {
        self.number += SHARE * value;
        self.last = value;
        self.left -= 1;
        self.contributes()
    }

    fn combined(left: f64, right: f64) -> f64 {
        left + right
    }

    fn size(&self) -> usize {
        24
    }

    fn pack(&self, bytes: &mut Vec<u8>) {
        let numbers = [self.number.to_bits(), self.last.to_bits(), self.left as u64];
        numbers.iter().for_each(|number| bytes.extend(number.to_be_bytes()));
    }

    fn unpack(bytes: &[u8]) -> Self {
        let number = |at: usize| u64::from_be_bytes(bytes[at..at + 8].try_into().unwrap());
        Adder { number: f64::from_bits(number(0)), last: f64::from_bits(number(8)), left: number(16) as usize }
    }
}

fn main() -> ExitCode {
    let Some(asked) = asked::Asked::read(&["--elements", "--pes", "--times"], &["--journal"]) else {
        eprintln!("usage: sums [--elements N] [--pes P] [--times K] [--journal]");
        return ExitCode::from(2);
    };
    let (n, times) = (asked.number("--elements", 10_000), asked.number("--times", 100));
    let adders = (0..n).map(|index| Adder::opening(index, times)).collect();
    let outcome = array::run(asked.number("--pes", 4), adders, asked.has("--journal"));
    outcome.tell("sums");
    let Some(first) = outcome.chares.first() else {
        return ExitCode::FAILURE;
    };
    println!("sums {times} last {:016x}", first.last.to_bits());
    ExitCode::SUCCESS
}
