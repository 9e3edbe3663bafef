//! A chare array in plain Rust without proofs, over a thread for each PE and crossbeam's queues: what `letters`, `sums` and `heat` run
//! on. Messages are values of the program's own type, handed on as they are. Elements take part in reductions of doubles, along the
//! tree of the indices, and are balanced where they are at sync.
use crate::board::{Board, Report};
use crossbeam_queue::ArrayQueue;
use std::collections::{HashMap, VecDeque};
use std::mem::take;
use std::sync::atomic::Ordering::SeqCst;
use std::sync::atomic::{AtomicU32, AtomicUsize};
use std::sync::{Arc, Mutex};
use std::thread;

/// Items that a queue has room for.
const ROOM: usize = 4096;

/// Items that a PE takes from its queue in a turn.
const MANY: usize = 256;

/// What an element is, and makes of what it is given.
pub trait Chare: Send + Sized {
    type Message: Send;

    /// It starts, or goes on after a round.
    fn on_resume(&mut self, here: Here, posts: &mut Posts<Self::Message>) -> Effect;

    fn on_message(&mut self, here: Here, message: &Self::Message, posts: &mut Posts<Self::Message>) -> Effect;

    /// The result of a reduction has come.
    fn on_result(&mut self, here: Here, value: f64, posts: &mut Posts<Self::Message>) -> Effect;

    /// Two contributions in one; the left one is of elements with lower indices.
    fn combined(left: f64, right: f64) -> f64;

    /// The bytes that it packs into.
    fn size(&self) -> usize;

    fn pack(&self, bytes: &mut Vec<u8>);

    fn unpack(bytes: &[u8]) -> Self;
}

/// The messages that a handler posts, each to an element.
pub type Posts<M> = Vec<(usize, M)>;

/// The index of an element, and how many there are.
#[derive(Clone, Copy)]
pub struct Here {
    pub me: usize,
    pub n: usize,
}

/// What a handler returns.
#[derive(Default)]
pub struct Effect {
    pub units: u64,
    pub at_sync: bool,
    pub finished: bool,
    pub contribution: Option<f64>,
}

/// What a letter says: a message of the program's own, the part of a reduction for a slot, or its result.
enum Body<M> {
    User(M),
    Part(u8, f64),
    Whole(f64),
}

/// A letter, numbered by the PE that posted it.
#[expect(dead_code, reason = "a journal tells which letter it was, and nobody asks")]
struct Letter<M> {
    from: u32,
    number: u32,
    to: u32,
    body: Body<M>,
}

/// An element on its way, packed. Its journal, if it keeps one, goes along.
struct Parcel<M> {
    index: usize,
    bytes: Vec<u8>,
    parts: Vec<(u8, f64)>,
    resumed: usize,
    executed: u64,
    journal: Option<Vec<Letter<M>>>,
}

enum Item<M> {
    Letter(Letter<M>),
    Parcel(Box<Parcel<M>>),
}

/// What an element has of the reduction that is under way.
#[derive(Default)]
struct Node {
    own: Option<f64>,
    parts: Vec<(u8, f64)>,
}

impl Node {
    /// The value that goes on, once all parts are there.
    fn whole<C: Chare>(&mut self, here: Here) -> Option<f64> {
        self.own.filter(|_| self.parts.len() == children(here))?;
        self.parts.sort_unstable_by_key(|&(slot, _)| slot);
        let own = self.own.take()?;
        Some(self.parts.drain(..).fold(own, |value, (_, part)| C::combined(value, part)))
    }
}

/// How many zeros the index ends with.
fn slot(index: usize) -> u32 {
    if index == 0 { 16 } else { index.trailing_zeros() }
}

/// How many children an element has: one for each slot below its own for which there is an element.
fn children(here: Here) -> usize {
    let beyond = usize::BITS - (here.n - here.me - 1).leading_zeros();
    slot(here.me).min(beyond) as usize
}

struct Element<C: Chare> {
    index: usize,
    chare: C,
    node: Node,
    /// Its work since it last reported.
    load: u64,
    /// Whether it has reported, and waits for the round to be decided.
    waits: bool,
    /// After how many rounds it has gone on.
    resumed: usize,
    executed: u64,
    journal: Option<Vec<Letter<C::Message>>>,
}

impl<C: Chare> Element<C> {
    /// What follows from the effect of a handler, or from a part that came: the value that goes on from the element, if there is one.
    fn reacts(&mut self, shared: &Shared<C::Message>, here: Here, effect: Effect, reports: &mut Vec<Report>) -> Option<f64> {
        self.load += effect.units;
        if effect.at_sync {
            self.waits = true;
            reports.push(Report { element: here.me, load: take(&mut self.load), size: self.chare.size() as u32 });
        }
        if effect.finished {
            shared.finished.fetch_add(1, SeqCst);
        }
        if effect.contribution.is_some() {
            self.node.own = effect.contribution;
        }
        self.node.whole::<C>(here)
    }

    fn packed(self) -> Parcel<C::Message> {
        let mut bytes = Vec::with_capacity(self.chare.size());
        self.chare.pack(&mut bytes);
        let Element { index, resumed, executed, journal, .. } = self;
        Parcel { index, bytes, parts: self.node.parts, resumed, executed, journal }
    }

    fn unpacked(parcel: Parcel<C::Message>) -> Self {
        Element {
            index: parcel.index,
            chare: C::unpack(&parcel.bytes),
            node: Node { own: None, parts: parcel.parts },
            load: 0,
            waits: false,
            resumed: parcel.resumed,
            executed: parcel.executed,
            journal: parcel.journal,
        }
    }
}

/// What the threads share.
struct Shared<M> {
    n: usize,
    /// A queue into each PE.
    queues: Vec<ArrayQueue<Item<M>>>,
    /// Of each element the PE where it is, or is bound for.
    places: Vec<AtomicU32>,
    board: Mutex<Board>,
    /// Rounds that were decided.
    decided: AtomicUsize,
    /// Elements that have nothing left to do.
    finished: AtomicUsize,
}

/// What a run ends with.
pub struct Outcome<C> {
    /// The elements, in the order of their indices.
    pub chares: Vec<C>,
    rounds: usize,
    moved: u64,
    posted: u64,
    executed: u64,
}

impl<C> Outcome<C> {
    /// Prints to the standard error how often the elements were balanced, how many bytes moved, and the account of the letters.
    pub fn tell(&self, program: &str) {
        let Outcome { rounds, moved, posted, executed, .. } = self;
        eprintln!("{program}: balanced {rounds} times, {moved} bytes moved, {posted} letters posted, {executed} executed");
    }
}

/// Runs an array, a thread for each PE.
pub fn run<C: Chare>(pes: usize, chares: Vec<C>, keeps_journal: bool) -> Outcome<C> {
    let n = chares.len();
    let home = |element: usize| element * pes / n;
    let shared = Shared {
        n,
        queues: (0..pes).map(|_| ArrayQueue::new(ROOM)).collect(),
        places: (0..n).map(|element| AtomicU32::new(home(element) as u32)).collect(),
        board: Mutex::new(Board::new(pes, (0..n).map(|element| home(element) as u32).collect())),
        decided: AtomicUsize::new(0),
        finished: AtomicUsize::new(0),
    };
    let mut elements: Vec<Vec<Element<C>>> = (0..pes).map(|_| Vec::new()).collect();
    for (index, chare) in chares.into_iter().enumerate() {
        let journal = keeps_journal.then(Vec::new);
        let node = Node::default();
        elements[home(index)].push(Element { index, chare, node, load: 0, waits: false, resumed: 0, executed: 0, journal });
    }
    let ends: Vec<(u32, Vec<Element<C>>)> = thread::scope(|scope| {
        let start = |(pe, elements)| {
            let shared = &shared;
            scope.spawn(move || Pe::new(pe, elements).run(shared))
        };
        let threads: Vec<_> = elements.into_iter().enumerate().map(start).collect();
        threads.into_iter().map(|thread| thread.join().unwrap()).collect()
    });
    let posted = ends.iter().map(|&(posted, _)| u64::from(posted)).sum();
    let mut left: Vec<Element<C>> = ends.into_iter().flat_map(|(_, elements)| elements).collect();
    left.sort_unstable_by_key(|element| element.index);
    let executed = left.iter().map(|element| element.executed).sum();
    let rounds = shared.board.into_inner().unwrap().rounds;
    let moved = rounds.iter().map(|round| round.moved).sum();
    let chares = left.into_iter().map(|element| element.chare).collect();
    Outcome { chares, rounds: rounds.len(), moved, posted, executed }
}

/// A PE: its elements, and what it does in a turn.
struct Pe<C: Chare> {
    me: usize,
    elements: HashMap<usize, Element<C>>,
    /// Letters to elements that are on their way here.
    shelf: HashMap<usize, Vec<Letter<C::Message>>>,
    /// Items that had no room in their queue.
    outbox: VecDeque<(usize, Item<C::Message>)>,
    /// Letters to elements here.
    local: VecDeque<Letter<C::Message>>,
    /// What a handler posts.
    posts: Posts<C::Message>,
    reports: Vec<Report>,
    posted: u32,
    round: usize,
}

impl<C: Chare> Pe<C> {
    fn new(me: usize, elements: Vec<Element<C>>) -> Self {
        Pe {
            me,
            elements: elements.into_iter().map(|element| (element.index, element)).collect(),
            shelf: HashMap::new(),
            outbox: VecDeque::new(),
            local: VecDeque::new(),
            posts: Vec::new(),
            reports: Vec::new(),
            posted: 0,
            round: 0,
        }
    }

    /// Takes turns until all elements have finished.
    fn run(mut self, shared: &Shared<C::Message>) -> (u32, Vec<Element<C>>) {
        let mut own: Vec<usize> = self.elements.keys().copied().collect();
        own.sort_unstable();
        own.into_iter().for_each(|index| self.resume(shared, index));
        while shared.finished.load(SeqCst) < shared.n {
            if !self.turn(shared) {
                thread::yield_now();
            }
        }
        (self.posted, self.elements.into_values().collect())
    }

    /// False: there was nothing to do.
    fn turn(&mut self, shared: &Shared<C::Message>) -> bool {
        let mut acts = self.flush(shared);
        while let Some(letter) = self.local.pop_front() {
            self.deliver(shared, letter);
            acts = true;
        }
        for _ in 0..MANY {
            let Some(item) = shared.queues[self.me].pop() else {
                break;
            };
            acts = true;
            match item {
                Item::Letter(letter) => self.deliver(shared, letter),
                Item::Parcel(parcel) => self.arrive(shared, *parcel),
            }
        }
        self.hand_in(shared) | self.follow(shared) | acts
    }

    /// Hands on what had no room, in order, as long as there is room now.
    fn flush(&mut self, shared: &Shared<C::Message>) -> bool {
        let mut acts = false;
        while let Some((pe, item)) = self.outbox.pop_front() {
            if let Err(item) = shared.queues[pe].push(item) {
                self.outbox.push_front((pe, item));
                break;
            }
            acts = true;
        }
        acts
    }

    fn send(&mut self, shared: &Shared<C::Message>, pe: usize, item: Item<C::Message>) {
        if !self.outbox.is_empty() {
            self.outbox.push_back((pe, item));
        } else if let Err(item) = shared.queues[pe].push(item) {
            self.outbox.push_back((pe, item));
        }
    }

    /// Executes a letter, keeps it for an element that comes, or sends it after one that has left.
    fn deliver(&mut self, shared: &Shared<C::Message>, letter: Letter<C::Message>) {
        let here = Here { me: letter.to as usize, n: shared.n };
        let Some(element) = self.elements.get_mut(&here.me) else {
            return self.send_after(shared, letter);
        };
        element.executed += 1;
        let effect = match &letter.body {
            Body::User(message) => element.chare.on_message(here, message, &mut self.posts),
            Body::Whole(value) => element.chare.on_result(here, *value, &mut self.posts),
            &Body::Part(slot, value) => {
                element.node.parts.push((slot, value));
                Effect::default()
            }
        };
        if let Some(journal) = &mut element.journal {
            journal.push(letter);
        }
        let whole = element.reacts(shared, here, effect, &mut self.reports);
        self.post_all(shared, here, whole);
    }

    fn send_after(&mut self, shared: &Shared<C::Message>, letter: Letter<C::Message>) {
        let to = letter.to as usize;
        match shared.places[to].load(SeqCst) as usize {
            pe if pe == self.me => self.shelf.entry(to).or_default().push(letter),
            pe => self.send(shared, pe, Item::Letter(letter)),
        }
    }

    /// Posts what a handler has posted, and the value that goes on from the element, if there is one.
    fn post_all(&mut self, shared: &Shared<C::Message>, here: Here, whole: Option<f64>) {
        if !self.posts.is_empty() {
            let mut posts = take(&mut self.posts);
            for (to, message) in posts.drain(..) {
                self.post(shared, to, Body::User(message));
            }
            self.posts = posts;
        }
        match whole {
            Some(value) if here.me == 0 => (0..here.n).for_each(|to| self.post(shared, to, Body::Whole(value))),
            Some(value) => {
                let slot = slot(here.me);
                self.post(shared, here.me - (1 << slot), Body::Part(slot as u8, value));
            }
            None => {}
        }
    }

    fn post(&mut self, shared: &Shared<C::Message>, to: usize, body: Body<C::Message>) {
        let letter = Letter { from: self.me as u32, number: self.posted, to: to as u32, body };
        self.posted += 1;
        match shared.places[to].load(SeqCst) as usize {
            pe if pe == self.me => self.local.push_back(letter),
            pe => self.send(shared, pe, Item::Letter(letter)),
        }
    }

    fn arrive(&mut self, shared: &Shared<C::Message>, parcel: Parcel<C::Message>) {
        let mut element = Element::<C>::unpacked(parcel);
        let index = element.index;
        element.resumed += 1;
        self.elements.insert(index, element);
        self.resume(shared, index);
        self.local.extend(self.shelf.remove(&index).into_iter().flatten());
    }

    /// An element starts, or goes on after a round.
    fn resume(&mut self, shared: &Shared<C::Message>, index: usize) {
        let here = Here { me: index, n: shared.n };
        let element = self.elements.get_mut(&index).unwrap();
        element.waits = false;
        let effect = element.chare.on_resume(here, &mut self.posts);
        let whole = element.reacts(shared, here, effect, &mut self.reports);
        self.post_all(shared, here, whole);
    }

    /// Hands in the reports of a turn, all under one lock.
    fn hand_in(&mut self, shared: &Shared<C::Message>) -> bool {
        if self.reports.is_empty() {
            return false;
        }
        if shared.board.lock().unwrap().report(&mut self.reports) {
            shared.decided.fetch_add(1, SeqCst);
        }
        true
    }

    /// Follows the next round that was decided: elements go, or are resumed.
    fn follow(&mut self, shared: &Shared<C::Message>) -> bool {
        if self.round == shared.decided.load(SeqCst) {
            return false;
        }
        let plan = Arc::clone(&shared.board.lock().unwrap().rounds[self.round].plan);
        // An element that arrived before this round was looked at here has gone on after it already.
        let is_due = |it: &&Element<C>| it.waits && it.resumed == self.round;
        let mut own: Vec<usize> = self.elements.values().filter(is_due).map(|it| it.index).collect();
        own.sort_unstable();
        self.round += 1;
        for index in own {
            let pe = plan.place_of(index);
            if pe == self.me {
                self.elements.get_mut(&index).unwrap().resumed += 1;
                self.resume(shared, index);
                continue;
            }
            let element = self.elements.remove(&index).unwrap();
            shared.places[index].store(pe as u32, SeqCst);
            self.send(shared, pe, Item::Parcel(Box::new(element.packed())));
        }
        true
    }
}
