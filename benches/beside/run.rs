//! What the threads share, and a whole run.
use crate::board::{Board, Round};
use crate::pe::{Element, Item, Pe};
use crate::workload::Workload;
use crossbeam_queue::ArrayQueue;
use std::sync::Mutex;
use std::sync::atomic::{AtomicU32, AtomicUsize};
use std::thread;

/// Items that a queue has room for.
const ROOM: usize = 4096;

pub struct Shared {
    pub chares: usize,
    /// A queue into each PE.
    pub queues: Vec<ArrayQueue<Item>>,
    /// Of each element the PE where it is, or is bound for.
    pub places: Vec<AtomicU32>,
    pub board: Mutex<Board>,
    /// Rounds that were decided.
    pub decided: AtomicUsize,
    /// Elements that have nothing left to do.
    pub finished: AtomicUsize,
}

/// What a run ends with.
pub struct Outcome {
    pub rounds: Vec<Round>,
    pub sums: Vec<u64>,
    pub posted: u64,
    pub executed: u64,
}

/// Runs the workload, a thread for each PE.
pub fn run(workload: &Workload, keeps_journal: bool) -> Outcome {
    let (pes, chares) = (workload.pes, workload.chares);
    let home = |element: usize| element * pes / chares;
    let shared = Shared {
        chares,
        queues: (0..pes).map(|_| ArrayQueue::new(ROOM)).collect(),
        places: (0..chares).map(|element| AtomicU32::new(home(element) as u32)).collect(),
        board: Mutex::new(Board::new(pes, (0..chares).map(|element| home(element) as u32).collect())),
        decided: AtomicUsize::new(0),
        finished: AtomicUsize::new(0),
    };
    let mut elements: Vec<Vec<Element>> = (0..pes).map(|_| Vec::new()).collect();
    for element in 0..chares {
        let amounts = workload.rounds.iter().map(|row| row[element]).collect();
        elements[home(element)].push(Element::new(element, amounts, workload.pad, keeps_journal));
    }
    let pes: Vec<Pe> = thread::scope(|scope| {
        let start = |(pe, elements)| {
            let shared = &shared;
            scope.spawn(move || Pe::new(pe, elements).run(shared))
        };
        let threads: Vec<_> = elements.into_iter().enumerate().map(start).collect();
        threads.into_iter().map(|thread| thread.join().unwrap()).collect()
    });
    outcome(shared, pes)
}

fn outcome(shared: Shared, pes: Vec<Pe>) -> Outcome {
    let mut sums = vec![0; shared.chares];
    let (mut posted, mut executed) = (0, 0);
    for pe in pes {
        posted += u64::from(pe.posted);
        for (index, element) in pe.elements {
            sums[index] = element.sum;
            executed += element.executed;
        }
    }
    Outcome { rounds: shared.board.into_inner().unwrap().rounds, sums, posted, executed }
}
