//! A yardstick for messages, in plain Rust without proofs: each element sends a row of bytes to the next one as it starts, and each time
//! that it has got one from the element before, and adds up the bytes of what it gets.
//!
//!     letters [--elements N] [--pes P] [--visits V] [--bytes B] [--journal]
//!
//! It prints how many rows each element got, and a checksum of the sums. `benches/programs/letters` is the same in Rattle.
mod array;
mod asked;
#[expect(dead_code, reason = "nobody asks for the bottleneck of a round")]
mod board;
#[expect(dead_code, reason = "a run prints neither the fence nor the loads of blocks")]
mod decision;

use array::{Chare, Effect, Here, Posts};
use std::process::ExitCode;

struct Sender {
    sum: u64,
    got: usize,
    visits: usize,
    /// How many bytes a row has.
    bytes: usize,
}

impl Sender {
    /// It sends a row to the next, if it is to, or has finished.
    fn sends(&self, here: Here, posts: &mut Posts<Vec<u8>>) -> Effect {
        let finished = self.got == self.visits;
        if !finished {
            posts.push(((here.me + 1) % here.n, vec![here.me as u8; self.bytes]));
        }
        Effect { units: 1, finished, ..Effect::default() }
    }
}

impl Chare for Sender {
    type Message = Vec<u8>;

    fn on_resume(&mut self, here: Here, posts: &mut Posts<Vec<u8>>) -> Effect {
        self.sends(here, posts)
    }

    fn on_message(&mut self, here: Here, message: &Vec<u8>, posts: &mut Posts<Vec<u8>>) -> Effect {
        self.sum = message.iter().fold(self.sum, |sum, &byte| sum.wrapping_add(u64::from(byte)));
        self.got += 1;
        self.sends(here, posts)
    }

    fn on_result(&mut self, _here: Here, _value: f64, _posts: &mut Posts<Vec<u8>>) -> Effect {
        Effect::default()
    }

    fn combined(left: f64, _right: f64) -> f64 {
        left
    }

    fn size(&self) -> usize {
        32
    }

    fn pack(&self, bytes: &mut Vec<u8>) {
        [self.sum, self.got as u64, self.visits as u64, self.bytes as u64].iter().for_each(|number| bytes.extend(number.to_be_bytes()));
    }

    fn unpack(bytes: &[u8]) -> Self {
        let number = |at: usize| u64::from_be_bytes(bytes[at..at + 8].try_into().unwrap());
        Sender { sum: number(0), got: number(8) as usize, visits: number(16) as usize, bytes: number(24) as usize }
    }
}

fn main() -> ExitCode {
    let Some(asked) = asked::Asked::read(&["--elements", "--pes", "--visits", "--bytes"], &["--journal"]) else {
        eprintln!("usage: letters [--elements N] [--pes P] [--visits V] [--bytes B] [--journal]");
        return ExitCode::from(2);
    };
    let (n, visits, bytes) = (asked.number("--elements", 1000), asked.number("--visits", 1000), asked.number("--bytes", 1024));
    let senders = (0..n).map(|_| Sender { sum: 0, got: 0, visits, bytes }).collect();
    let outcome = array::run(asked.number("--pes", 4), senders, asked.has("--journal"));
    outcome.tell("letters");
    let joined = |sum: u64, it: &Sender| (sum ^ it.sum).wrapping_mul(0x100_0000_01b3);
    let checksum = outcome.chares.iter().fold(0xcbf2_9ce4_8422_2325, joined);
    println!("visits {visits} checksum {checksum:016x}");
    ExitCode::SUCCESS
}
