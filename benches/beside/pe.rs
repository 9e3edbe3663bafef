//! A PE: its elements, and what it does in a turn.
use crate::board::Report;
use crate::run::Shared;
use std::collections::{HashMap, VecDeque};
use std::sync::Arc;
use std::sync::atomic::Ordering::SeqCst;
use std::thread;

/// Items that a PE takes from its queue in a turn.
const MANY: usize = 256;

/// A letter, numbered by the PE that posted it. Its body is of any length.
#[expect(dead_code, reason = "a journal tells which letter it was, and nobody asks")]
pub struct Letter {
    pub from: usize,
    pub number: u32,
    pub to: usize,
    pub body: Box<[u8]>,
}

/// An element on its way, packed. Its journal, if it keeps one, goes along.
pub struct Parcel {
    index: usize,
    bytes: Vec<u8>,
    executed: u64,
    journal: Option<Vec<Letter>>,
}

pub enum Item {
    Letter(Letter),
    Parcel(Box<Parcel>),
}

/// A chare that sends an amount to its neighbor in each round, and adds up what comes.
pub struct Element {
    posted: usize,
    got: usize,
    pub sum: u64,
    amounts: Vec<u32>,
    pad: Vec<u8>,
    /// Its work since it last reported.
    load: u64,
    /// Whether it has reported, and waits for the round to be decided.
    waits: bool,
    index: usize,
    /// How many letters it has executed.
    pub executed: u64,
    journal: Option<Vec<Letter>>,
}

impl Element {
    pub fn new(index: usize, amounts: Vec<u32>, pad: usize, keeps_journal: bool) -> Self {
        let pad = vec![0; pad];
        let journal = keeps_journal.then(Vec::new);
        Element { posted: 0, got: 0, sum: 0, amounts, pad, load: 0, waits: false, index, executed: 0, journal }
    }

    fn size(&self) -> usize {
        24 + 4 * self.amounts.len() + self.pad.len()
    }

    fn packed(self) -> Parcel {
        let mut bytes = Vec::with_capacity(self.size());
        bytes.extend((self.posted as u32).to_be_bytes());
        bytes.extend((self.got as u32).to_be_bytes());
        bytes.extend(self.sum.to_be_bytes());
        bytes.extend((self.amounts.len() as u32).to_be_bytes());
        self.amounts.iter().for_each(|amount| bytes.extend(amount.to_be_bytes()));
        bytes.extend((self.pad.len() as u32).to_be_bytes());
        bytes.extend(&self.pad);
        Parcel { index: self.index, bytes, executed: self.executed, journal: self.journal }
    }

    fn unpacked(parcel: Parcel) -> Self {
        let word = |at: usize| u32::from_be_bytes(parcel.bytes[at..at + 4].try_into().unwrap());
        let end = 20 + 4 * word(16) as usize;
        Element {
            posted: word(0) as usize,
            got: word(4) as usize,
            sum: u64::from(word(8)) << 32 | u64::from(word(12)),
            amounts: (20..end).step_by(4).map(word).collect(),
            pad: parcel.bytes[end + 4..].to_vec(),
            load: 0,
            waits: false,
            index: parcel.index,
            executed: parcel.executed,
            journal: parcel.journal,
        }
    }

    /// Handles a letter. True: the element has what it waited for in this round.
    fn execute(&mut self, letter: Letter) -> bool {
        let units = u32::from_be_bytes(letter.body[..].try_into().unwrap());
        self.got += 1;
        self.sum += u64::from(units);
        self.load += u64::from(units);
        self.executed += 1;
        if let Some(journal) = &mut self.journal {
            journal.push(letter);
        }
        self.got == self.posted
    }

    fn report(&mut self) -> Report {
        self.waits = true;
        Report { element: self.index, load: std::mem::take(&mut self.load), size: self.size() as u32 }
    }
}

pub struct Pe {
    me: usize,
    pub elements: HashMap<usize, Element>,
    /// Letters to elements that are on their way here.
    shelf: HashMap<usize, Vec<Letter>>,
    /// Items that had no room in their queue.
    outbox: VecDeque<(usize, Item)>,
    /// Letters to elements here.
    local: VecDeque<Letter>,
    reports: Vec<Report>,
    pub posted: u32,
    round: usize,
}

impl Pe {
    pub fn new(me: usize, elements: Vec<Element>) -> Self {
        Pe {
            me,
            elements: elements.into_iter().map(|element| (element.index, element)).collect(),
            shelf: HashMap::new(),
            outbox: VecDeque::new(),
            local: VecDeque::new(),
            reports: Vec::new(),
            posted: 0,
            round: 0,
        }
    }

    /// Takes turns until all elements have finished.
    pub fn run(mut self, shared: &Shared) -> Self {
        let own: Vec<usize> = self.elements.keys().copied().collect();
        own.into_iter().for_each(|index| self.resume(shared, index));
        while shared.finished.load(SeqCst) < shared.chares {
            if !self.turn(shared) {
                thread::yield_now();
            }
        }
        self
    }

    /// False: there was nothing to do.
    fn turn(&mut self, shared: &Shared) -> bool {
        let mut acts = self.flush(shared);
        while let Some(letter) = self.local.pop_front() {
            self.deliver(shared, letter);
            acts = true;
        }
        for _ in 0..MANY {
            let Some(item) = shared.queues[self.me].pop() else {
                break;
            };
            acts = true;
            match item {
                Item::Letter(letter) => self.deliver(shared, letter),
                Item::Parcel(parcel) => self.arrive(shared, *parcel),
            }
        }
        self.hand_in(shared) | self.follow(shared) | acts
    }

    /// Hands on what had no room, in order, as long as there is room now.
    fn flush(&mut self, shared: &Shared) -> bool {
        let mut acts = false;
        while let Some((pe, item)) = self.outbox.pop_front() {
            if let Err(item) = shared.queues[pe].push(item) {
                self.outbox.push_front((pe, item));
                break;
            }
            acts = true;
        }
        acts
    }

    fn send(&mut self, shared: &Shared, pe: usize, item: Item) {
        if !self.outbox.is_empty() {
            self.outbox.push_back((pe, item));
        } else if let Err(item) = shared.queues[pe].push(item) {
            self.outbox.push_back((pe, item));
        }
    }

    /// Executes a letter, keeps it for an element that comes, or sends it after one that has left.
    fn deliver(&mut self, shared: &Shared, letter: Letter) {
        let to = letter.to;
        if let Some(element) = self.elements.get_mut(&to) {
            if element.execute(letter) {
                self.reports.push(element.report());
            }
            return;
        }
        match shared.places[to].load(SeqCst) as usize {
            pe if pe == self.me => self.shelf.entry(to).or_default().push(letter),
            pe => self.send(shared, pe, Item::Letter(letter)),
        }
    }

    fn arrive(&mut self, shared: &Shared, parcel: Parcel) {
        let element = Element::unpacked(parcel);
        let index = element.index;
        self.elements.insert(index, element);
        self.resume(shared, index);
        self.local.extend(self.shelf.remove(&index).into_iter().flatten());
    }

    /// An element begins its next round, or has finished.
    fn resume(&mut self, shared: &Shared, index: usize) {
        let element = self.elements.get_mut(&index).unwrap();
        element.waits = false;
        let Some(amount) = element.amounts.get(element.posted) else {
            shared.finished.fetch_add(1, SeqCst);
            return;
        };
        let to = (index + 1) % shared.chares;
        let letter = Letter { from: self.me, number: self.posted, to, body: Box::new(amount.to_be_bytes()) };
        element.posted += 1;
        self.posted += 1;
        if element.got >= element.posted {
            self.reports.push(element.report());
        }
        match shared.places[to].load(SeqCst) as usize {
            pe if pe == self.me => self.local.push_back(letter),
            pe => self.send(shared, pe, Item::Letter(letter)),
        }
    }

    /// Hands in the reports of a turn, all under one lock.
    fn hand_in(&mut self, shared: &Shared) -> bool {
        if self.reports.is_empty() {
            return false;
        }
        if shared.board.lock().unwrap().report(&mut self.reports) {
            shared.decided.fetch_add(1, SeqCst);
        }
        true
    }

    /// Follows the next round that was decided: elements go, or are resumed.
    fn follow(&mut self, shared: &Shared) -> bool {
        if self.round == shared.decided.load(SeqCst) {
            return false;
        }
        let plan = Arc::clone(&shared.board.lock().unwrap().rounds[self.round].plan);
        self.round += 1;
        // An element that arrived before this round was looked at here has begun its next round already.
        let round = self.round;
        let is_due = |it: &&Element| it.waits && it.posted == round;
        let own: Vec<usize> = self.elements.values().filter(is_due).map(|it| it.index).collect();
        for index in own {
            let pe = plan.place_of(index);
            if pe == self.me {
                self.resume(shared, index);
                continue;
            }
            let element = self.elements.remove(&index).unwrap();
            shared.places[index].store(pe as u32, SeqCst);
            self.send(shared, pe, Item::Parcel(Box::new(element.packed())));
        }
        true
    }
}
