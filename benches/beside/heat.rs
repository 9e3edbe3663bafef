//! A yardstick for `heat`, in plain Rust without proofs: the heat equation on a rod, whose strips of 16 cells tell their neighbors the
//! cells at their ends, contribute the greatest change of a cell in each step, and are balanced every few steps, or never.
//!
//!     heat [--elements N] [--pes P] [--steps S] [--every K] [--small E] [--journal]
//!
//! It prints the line that `heat` prints, bit for bit.
mod array;
mod asked;
#[expect(dead_code, reason = "nobody asks for the bottleneck of a round")]
mod board;
#[expect(dead_code, reason = "a run prints neither the fence nor the loads of blocks")]
mod decision;

use array::{Chare, Effect, Here, Posts};
use std::process::ExitCode;

/// Cells of a strip.
const CELLS: usize = 16;

/// How many small steps a burning cell takes in a step.
const PARTS: usize = 64;

fn is_burning(cell: f64) -> bool {
    cell >= 0.25
}

/// A cell after a step: heat is conducted, and a hot cell burns.
fn next_cell(left: f64, cell: f64, right: f64) -> f64 {
    let mut heat = cell + 0.25 * ((left - cell) + (right - cell));
    if is_burning(cell) {
        for _ in 0..PARTS {
            heat += 0.003_906_25 * (1.0 - heat);
        }
    }
    heat
}

/// A cell at an end of a strip, for the neighbor there.
struct GhostCell {
    from_left: bool,
    step: u32,
    heat: f64,
}

/// How long the strips go on, and how often they are balanced.
#[derive(Clone, Copy)]
struct Plan {
    steps: u32,
    every: u32,
    small: f64,
}

struct Strip {
    plan: Plan,
    begun: u32,
    done: u32,
    residual: f64,
    left: Option<f64>,
    right: Option<f64>,
    cells: Vec<f64>,
}

impl Strip {
    fn opening(plan: Plan, heat: f64) -> Self {
        Strip { plan, begun: 0, done: 0, residual: f64::INFINITY, left: None, right: None, cells: vec![heat; CELLS] }
    }

    fn is_over(&self) -> bool {
        self.plan.steps <= self.done || self.residual < self.plan.small
    }

    fn has_cells(&self, here: Here) -> bool {
        (here.me == 0 || self.left.is_some()) && (here.me + 1 == here.n || self.right.is_some())
    }

    /// Begins the next step, if there is one.
    fn begin(&mut self, here: Here, posts: &mut Posts<GhostCell>) -> Effect {
        if self.is_over() {
            return Effect { finished: true, ..Effect::default() };
        }
        let step = self.done;
        if here.me > 0 {
            posts.push((here.me - 1, GhostCell { from_left: false, step, heat: self.cells[0] }));
        }
        if here.me + 1 < here.n {
            posts.push((here.me + 1, GhostCell { from_left: true, step, heat: self.cells[CELLS - 1] }));
        }
        self.begun = step + 1;
        if self.has_cells(here) { self.compute() } else { Effect::default() }
    }

    /// Computes the step that it has begun.
    fn compute(&mut self) -> Effect {
        let burning = self.cells.iter().filter(|&&cell| is_burning(cell)).count();
        let mut next = Vec::with_capacity(CELLS);
        let mut most = 0.0;
        let (mut before, right) = (self.left.take().unwrap_or(0.0), self.right.take().unwrap_or(0.0));
        for (i, &cell) in self.cells.iter().enumerate() {
            let heat = next_cell(before, cell, self.cells.get(i + 1).copied().unwrap_or(right));
            next.push(heat);
            most = Self::combined(most, (heat - cell).abs());
            before = cell;
        }
        self.cells = next;
        self.done += 1;
        let units = (CELLS + PARTS * burning) as u64;
        Effect { units, contribution: Some(most), ..Effect::default() }
    }
}

impl Chare for Strip {
    type Message = GhostCell;

    fn on_resume(&mut self, here: Here, posts: &mut Posts<GhostCell>) -> Effect {
        self.begin(here, posts)
    }

    fn on_message(&mut self, here: Here, cell: &GhostCell, _posts: &mut Posts<GhostCell>) -> Effect {
        if cell.step == self.done {
            let place = if cell.from_left { &mut self.left } else { &mut self.right };
            *place = Some(cell.heat);
        }
        if self.begun > self.done && self.has_cells(here) { self.compute() } else { Effect::default() }
    }

    fn on_result(&mut self, here: Here, residual: f64, posts: &mut Posts<GhostCell>) -> Effect {
        self.residual = residual;
        if !self.is_over() && self.plan.every != 0 && self.done % self.plan.every == 0 {
            return Effect { at_sync: true, ..Effect::default() };
        }
        self.begin(here, posts)
    }

    fn combined(left: f64, right: f64) -> f64 {
        if left < right || right.is_nan() { right } else { left }
    }

    fn size(&self) -> usize {
        38 + 8 * (usize::from(self.left.is_some()) + usize::from(self.right.is_some())) + 8 * self.cells.len()
    }

    fn pack(&self, bytes: &mut Vec<u8>) {
        bytes.extend(self.plan.steps.to_be_bytes());
        bytes.extend(self.plan.every.to_be_bytes());
        bytes.extend(self.plan.small.to_be_bytes());
        bytes.extend(self.begun.to_be_bytes());
        bytes.extend(self.done.to_be_bytes());
        bytes.extend(self.residual.to_be_bytes());
        for place in [self.left, self.right] {
            bytes.push(u8::from(place.is_some()));
            place.iter().for_each(|heat| bytes.extend(heat.to_be_bytes()));
        }
        bytes.extend((self.cells.len() as u32).to_be_bytes());
        self.cells.iter().for_each(|cell| bytes.extend(cell.to_be_bytes()));
    }

    fn unpack(bytes: &[u8]) -> Self {
        let mut rest = bytes;
        let steps = u32::from_be_bytes(first(&mut rest));
        let every = u32::from_be_bytes(first(&mut rest));
        let small = f64::from_be_bytes(first(&mut rest));
        let begun = u32::from_be_bytes(first(&mut rest));
        let done = u32::from_be_bytes(first(&mut rest));
        let residual = f64::from_be_bytes(first(&mut rest));
        let mut place = || (first::<1>(&mut rest) == [1]).then(|| f64::from_be_bytes(first(&mut rest)));
        let (left, right) = (place(), place());
        let count = u32::from_be_bytes(first(&mut rest));
        let cells = (0..count).map(|_| f64::from_be_bytes(first(&mut rest))).collect();
        Strip { plan: Plan { steps, every, small }, begun, done, residual, left, right, cells }
    }
}

/// The first bytes of these, which are left without them.
fn first<const N: usize>(bytes: &mut &[u8]) -> [u8; N] {
    let (head, rest) = bytes.split_at(N);
    *bytes = rest;
    head.try_into().unwrap()
}

fn main() -> ExitCode {
    let options = ["--elements", "--pes", "--steps", "--every", "--small"];
    let Some(asked) = asked::Asked::read(&options, &["--journal"]) else {
        eprintln!("usage: heat [--elements N] [--pes P] [--steps S] [--every K] [--small E] [--journal]");
        return ExitCode::from(2);
    };
    let small = 0.5_f64.powi(asked.number("--small", 20) as i32);
    let plan = Plan { steps: asked.number("--steps", 1000) as u32, every: asked.number("--every", 10) as u32, small };
    let n = asked.number("--elements", 64);
    let strips = (0..n).map(|index| Strip::opening(plan, if index == 0 { 1.0 } else { 0.0 })).collect();
    let outcome = array::run(asked.number("--pes", 4), strips, asked.has("--journal"));
    outcome.tell("heat");
    let Some(first) = outcome.chares.first() else {
        return ExitCode::FAILURE;
    };
    let cells = outcome.chares.iter().flat_map(|strip| &strip.cells);
    let checksum = cells.fold(0xcbf2_9ce4_8422_2325_u64, |sum, cell| (sum ^ cell.to_bits()).wrapping_mul(0x100_0000_01b3));
    println!("steps {} residual {:016x} checksum {checksum:016x}", first.done, first.residual.to_bits());
    ExitCode::SUCCESS
}
