//! A world of PEs on one thread, event by event, as docs/EVENTS.md says.
use crate::decision::{Chain, Decision};
use crate::drawing::{Bias, DRAWS, Drawing, Kind};
use crate::first_names::first_names;
use crate::workload::Workload;
use std::collections::VecDeque;
use std::fmt::{self, Display};

/// A letter, numbered by the PE that posted it. Its body is of any length.
struct Letter {
    id: Id,
    to: usize,
    hops: u32,
    body: Box<[u8]>,
}

/// The PE that posted a letter, and its number there.
pub type Id = (u32, u32);

/// What an element has done.
#[expect(dead_code, reason = "a journal tells what happened, and nobody asks")]
enum Entry {
    Resumed { round: usize, pe: usize },
    Executed(Letter),
}

/// A chare that sends an amount to its neighbor in each round, and adds up what comes; and how far it has come.
struct Element {
    pe: usize,
    posted: usize,
    got: usize,
    sum: u64,
    amounts: Vec<u32>,
    pad: Vec<u8>,
    progress: Progress,
}

struct Progress {
    has_started: bool,
    waits: bool,
    has_finished: bool,
    round: usize,
    load: u64,
    journal: Vec<Entry>,
}

/// An element on its way, packed. What it has done goes along.
struct Packed {
    index: usize,
    bytes: Vec<u8>,
    progress: Progress,
}

enum Parcel {
    Letter(Letter),
    Element(Box<Packed>),
}

/// What a PE owes the board.
enum Note {
    Synced { element: usize, load: u64, size: u32 },
    Finished,
}

#[derive(Default)]
struct Pe {
    hand: Option<Parcel>,
    /// The PE that a look gave for the letter in the hand.
    look: Option<usize>,
    shelf: Vec<Letter>,
    outbox: VecDeque<(Parcel, Option<usize>)>,
    queue: VecDeque<Parcel>,
    notes: VecDeque<Note>,
    posted: u32,
}

/// An event that happened.
#[derive(Clone, Copy)]
pub enum Event {
    Of(&'static str, usize),
    OfElement(&'static str, usize, usize),
    Decide,
}

impl Display for Event {
    fn fmt(&self, to: &mut fmt::Formatter<'_>) -> fmt::Result {
        match self {
            Event::Of(name, pe) => write!(to, "{name} {pe}"),
            Event::OfElement(name, pe, element) => write!(to, "{name} {pe} {element}"),
            Event::Decide => write!(to, "Decide"),
        }
    }
}

/// What an event adds to the trace.
#[expect(dead_code, reason = "a trace is kept, and nobody asks")]
pub enum Traced {
    Posted(Id, usize),
    Executed(Id, usize),
    Shelved(Id),
    Forwarded(Id),
    Resumed(usize, usize),
    Departed(usize),
    Installed(usize),
    Synced(usize, usize),
    Decided(usize),
}

/// A round that was decided.
pub struct Round {
    pub bottleneck: u64,
    pub moved: u64,
    places: Vec<u32>,
}

pub struct World {
    pes: Vec<Pe>,
    /// The elements that stand on a PE.
    elements: Vec<Option<Element>>,
    /// Of each element the PE on which it is looked for.
    words: Vec<usize>,
    chain: Chain,
    reported: usize,
    finished: usize,
    pub rounds: Vec<Round>,
    drawing: Drawing,
    posted: u64,
    executed: u64,
    /// Each event, with the end of what it added to the trace.
    pub steps: Vec<(Event, usize)>,
    trace: Vec<Traced>,
}

impl World {
    pub fn new(workload: &Workload, seed: u64, bias: &Bias) -> Self {
        let (pes, count) = (workload.pes, workload.chares);
        let words: Vec<usize> = (0..count).map(|element| element * pes / count).collect();
        let new = |element: usize| Element {
            pe: words[element],
            posted: 0,
            got: 0,
            sum: 0,
            amounts: workload.rounds.iter().map(|row| row[element]).collect(),
            pad: vec![0; workload.pad],
            progress: Progress { has_started: false, waits: false, has_finished: false, round: 0, load: 0, journal: Vec::new() },
        };
        let mut world = World {
            pes: (0..pes).map(|_| Pe::default()).collect(),
            elements: (0..count).map(|element| Some(new(element))).collect(),
            chain: Chain { loads: vec![0; count], sizes: vec![0; count], places: vec![0; count] },
            words,
            reported: 0,
            finished: 0,
            rounds: Vec::new(),
            drawing: Drawing::new(seed, bias, pes, count),
            posted: 0,
            executed: 0,
            steps: Vec::new(),
            trace: Vec::new(),
        };
        (0..count).for_each(|element| world.see_element(element));
        world.see_board();
        world
    }

    /// Runs until every element has finished and no letter is held, or says why not.
    pub fn run(&mut self, limit: usize) -> Option<&'static str> {
        loop {
            if self.finished == self.elements.len() && self.posted == self.executed {
                return None;
            }
            if self.steps.len() == limit {
                return Some("stopped");
            }
            let Some((kind, number)) = self.drawn() else {
                return Some("idle");
            };
            let event = self.step(kind, number);
            self.steps.push((event, self.trace.len()));
        }
    }

    /// The sum of each element, where all stand.
    pub fn sums(&self) -> impl Iterator<Item = u64> {
        self.elements.iter().flatten().map(|element| element.sum)
    }

    /// How many letters were posted, and how many were executed.
    pub fn account(&self) -> (u64, u64) {
        (self.posted, self.executed)
    }

    fn drawn(&mut self) -> Option<(Kind, usize)> {
        let mut drawn = self.drawing.draw()?;
        for _ in 1..DRAWS {
            let pe = match drawn {
                (Kind::Decide, _) => None,
                (Kind::Element, element) => self.elements[element].as_ref().map(|it| it.pe),
                (_, pe) => Some(pe),
            };
            if pe.is_none() || pe != self.drawing.starved {
                break;
            }
            drawn = self.drawing.draw()?;
        }
        Some(drawn)
    }

    fn step(&mut self, kind: Kind, number: usize) -> Event {
        let event = match kind {
            Kind::Look => self.look(number),
            Kind::Flush => self.flush(number),
            Kind::Deliver => self.deliver(number),
            Kind::Act => self.act(number),
            Kind::Report => self.report(number),
            Kind::Element => return self.element_event(number),
            Kind::Decide => return self.decide(),
        };
        self.see_pe(number);
        event
    }

    // What each event does.

    fn look(&mut self, p: usize) -> Event {
        let stray = self.stray(p);
        let pe = &mut self.pes[p];
        match stray {
            Some(to) if pe.look.is_none() => pe.look = Some(self.words[to]),
            _ => {
                if let Some((Parcel::Letter(letter), address)) = pe.outbox.front_mut() {
                    *address = Some(self.words[letter.to]);
                }
            }
        }
        Event::Of("Look", p)
    }

    fn flush(&mut self, p: usize) -> Event {
        if let Some((parcel, Some(q))) = self.pes[p].outbox.pop_front() {
            self.pes[q].queue.push_back(parcel);
            self.see_pe(q);
        }
        Event::Of("Flush", p)
    }

    fn deliver(&mut self, p: usize) -> Event {
        let pe = &mut self.pes[p];
        pe.hand = pe.queue.pop_front();
        Event::Of("Deliver", p)
    }

    fn act(&mut self, p: usize) -> Event {
        let pe = &mut self.pes[p];
        let look = pe.look.take();
        match pe.hand.take() {
            Some(Parcel::Element(packed)) => self.install(p, *packed),
            Some(Parcel::Letter(letter)) => match look {
                None => self.execute(p, letter),
                Some(q) if q == p => {
                    self.trace.push(Traced::Shelved(letter.id));
                    pe.shelf.push(letter);
                }
                Some(q) => {
                    self.trace.push(Traced::Forwarded(letter.id));
                    let letter = Letter { hops: letter.hops + 1, ..letter };
                    pe.outbox.push_back((Parcel::Letter(letter), Some(q)));
                }
            },
            None => {}
        }
        Event::Of("Act", p)
    }

    fn install(&mut self, p: usize, packed: Packed) {
        let index = packed.index;
        self.elements[index] = Some(Element::unpacked(packed, p));
        self.see_element(index);
        let pe = &mut self.pes[p];
        if pe.shelf.iter().any(|letter| letter.to == index) {
            let (to_it, rest) = std::mem::take(&mut pe.shelf).into_iter().partition::<Vec<_>, _>(|letter| letter.to == index);
            pe.shelf = rest;
            pe.outbox.extend(to_it.into_iter().map(|letter| (Parcel::Letter(letter), Some(p))));
        }
        self.trace.push(Traced::Installed(index));
    }

    fn execute(&mut self, p: usize, letter: Letter) {
        let index = letter.to;
        let element = self.elements[index].as_mut().unwrap();
        let units = u64::from(u32::from_be_bytes(letter.body[..].try_into().unwrap()));
        element.got += 1;
        element.sum += units;
        element.progress.load += units;
        self.executed += 1;
        self.trace.push(Traced::Executed(letter.id, index));
        element.progress.journal.push(Entry::Executed(letter));
        let is_at_sync = element.got == element.posted;
        if is_at_sync {
            self.wait(p, index);
        }
        self.see_element(index);
    }

    fn report(&mut self, p: usize) -> Event {
        match self.pes[p].notes.pop_front() {
            Some(Note::Synced { element, load, size }) => {
                self.chain.loads[element] = load;
                self.chain.sizes[element] = size;
                self.chain.places[element] = p as u32;
                self.reported += 1;
                self.trace.push(Traced::Synced(element, self.rounds.len() + 1));
                self.see_board();
            }
            Some(Note::Finished) => self.finished += 1,
            None => {}
        }
        Event::Of("Report", p)
    }

    fn decide(&mut self) -> Event {
        let Decision { bottleneck, moved, cuts, names, .. } = Decision::named_by(first_names, &self.chain, self.pes.len());
        let mut places = vec![0; self.words.len()];
        for (ends, &pe) in cuts.windows(2).zip(&names) {
            places[ends[0]..ends[1]].fill(pe as u32);
        }
        self.rounds.push(Round { bottleneck, moved, places });
        self.reported = 0;
        self.trace.push(Traced::Decided(self.rounds.len()));
        self.see_board();
        (0..self.words.len()).for_each(|element| self.see_element(element));
        Event::Decide
    }

    fn element_event(&mut self, index: usize) -> Event {
        let element = self.elements[index].as_ref().unwrap();
        let (p, round) = (element.pe, element.progress.round);
        let event = if !element.progress.has_started {
            self.resume(p, index, 0);
            Event::OfElement("Start", p, index)
        } else {
            let place = self.rounds[round].places[index] as usize;
            if place == p {
                self.resume(p, index, round + 1);
                Event::OfElement("Resume", p, index)
            } else {
                let packed = self.elements[index].take().unwrap().packed(index);
                self.words[index] = place;
                self.pes[p].outbox.push_back((Parcel::Element(Box::new(packed)), Some(place)));
                self.trace.push(Traced::Departed(index));
                Event::OfElement("Depart", p, index)
            }
        };
        self.see_element(index);
        self.see_pe(p);
        event
    }

    /// An element starts, or begins its next round: it sends what it is given to send, or has finished.
    fn resume(&mut self, p: usize, index: usize, round: usize) {
        let to = (index + 1) % self.words.len();
        let element = self.elements[index].as_mut().unwrap();
        element.progress.has_started = true;
        element.progress.waits = false;
        element.progress.round = round;
        element.progress.journal.push(Entry::Resumed { round, pe: p });
        self.trace.push(Traced::Resumed(index, round));
        let pe = &mut self.pes[p];
        let Some(amount) = element.amounts.get(element.posted) else {
            element.progress.has_finished = true;
            pe.notes.push_back(Note::Finished);
            return;
        };
        let id = (p as u32, pe.posted);
        let letter = Letter { id, to, hops: 0, body: Box::new(amount.to_be_bytes()) };
        pe.posted += 1;
        self.posted += 1;
        pe.outbox.push_back((Parcel::Letter(letter), None));
        self.trace.push(Traced::Posted(id, to));
        element.posted += 1;
        if element.got >= element.posted {
            self.wait(p, index);
        }
    }

    /// An element begins to wait at AtSync.
    fn wait(&mut self, p: usize, index: usize) {
        let element = self.elements[index].as_mut().unwrap();
        if element.progress.waits || element.progress.has_finished {
            return;
        }
        element.progress.waits = true;
        let load = std::mem::take(&mut element.progress.load);
        self.pes[p].notes.push_back(Note::Synced { element: index, load, size: element.size() as u32 });
    }

    // What is enabled after it.

    /// The element of the letter in the hand, where it does not stand here.
    fn stray(&self, p: usize) -> Option<usize> {
        match &self.pes[p].hand {
            Some(Parcel::Letter(letter)) if self.elements[letter.to].as_ref().is_none_or(|it| it.pe != p) => Some(letter.to),
            _ => None,
        }
    }

    fn may_act(&self, p: usize) -> bool {
        match &self.pes[p].hand {
            None => false,
            Some(Parcel::Element(_)) => true,
            Some(Parcel::Letter(letter)) => match &self.elements[letter.to] {
                Some(element) if element.pe == p => element.progress.has_started,
                _ => self.pes[p].look.is_some(),
            },
        }
    }

    fn see_pe(&mut self, p: usize) {
        let may_act = self.may_act(p);
        let strays = self.stray(p).is_some();
        let pe = &self.pes[p];
        let front = pe.outbox.front().map(|(_, address)| address.is_some());
        self.drawing.put(Kind::Look, p, strays && pe.look.is_none() || front == Some(false));
        self.drawing.put(Kind::Flush, p, front == Some(true));
        self.drawing.put(Kind::Deliver, p, pe.hand.is_none() && !pe.queue.is_empty());
        self.drawing.put(Kind::Act, p, may_act);
        self.drawing.put(Kind::Report, p, !pe.notes.is_empty());
    }

    fn see_element(&mut self, index: usize) {
        let may = self.elements[index].as_ref().is_some_and(|Element { progress, .. }| {
            !progress.has_started || progress.waits && progress.round < self.rounds.len()
        });
        self.drawing.put(Kind::Element, index, may);
    }

    fn see_board(&mut self) {
        self.drawing.put(Kind::Decide, 0, self.reported == self.words.len());
    }
}

impl Element {
    fn size(&self) -> usize {
        24 + 4 * self.amounts.len() + self.pad.len()
    }

    fn packed(self, index: usize) -> Packed {
        let mut bytes = Vec::with_capacity(self.size());
        bytes.extend((self.posted as u32).to_be_bytes());
        bytes.extend((self.got as u32).to_be_bytes());
        bytes.extend(self.sum.to_be_bytes());
        bytes.extend((self.amounts.len() as u32).to_be_bytes());
        self.amounts.iter().for_each(|amount| bytes.extend(amount.to_be_bytes()));
        bytes.extend((self.pad.len() as u32).to_be_bytes());
        bytes.extend(&self.pad);
        Packed { index, bytes, progress: self.progress }
    }

    fn unpacked(packed: Packed, pe: usize) -> Self {
        let word = |at: usize| u32::from_be_bytes(packed.bytes[at..at + 4].try_into().unwrap());
        let end = 20 + 4 * word(16) as usize;
        Element {
            pe,
            posted: word(0) as usize,
            got: word(4) as usize,
            sum: u64::from(word(8)) << 32 | u64::from(word(12)),
            amounts: (20..end).step_by(4).map(word).collect(),
            pad: packed.bytes[end + 4..].to_vec(),
            progress: packed.progress,
        }
    }
}
