//! The threads of `tokentree threads` in plain Rust, without contracts, for comparison: the same nodes, turns, stamps,
//! clocks, rings and journals, with only std. `threads.sh` builds and runs it:
//!
//!     plain_threads line|square|ring TURNS        prints how many events the nodes did
//!
//! Built with `--cfg sequential`, its rings use sequentially consistent atomics, as those of `rtrb` do.
use std::cell::UnsafeCell;
use std::mem::MaybeUninit;
use std::sync::Arc;
use std::sync::atomic::{AtomicUsize, Ordering};
use std::thread;

#[cfg(not(sequential))]
const LOAD: Ordering = Ordering::Acquire;
#[cfg(not(sequential))]
const STORE: Ordering = Ordering::Release;
#[cfg(sequential)]
const LOAD: Ordering = Ordering::SeqCst;
#[cfg(sequential)]
const STORE: Ordering = Ordering::SeqCst;

const CAPACITY: usize = 16;
const LAST_STAMP: u64 = 1 << 62;
const LAST_PLACE: u64 = 1 << 61;

// ---- rings: bounded, with one producer and one consumer; each remembers where the other was

#[repr(align(128))]
struct Apart(AtomicUsize);

struct Ring<T> {
    head: Apart,
    tail: Apart,
    slots: Box<[UnsafeCell<MaybeUninit<T>>]>,
}

unsafe impl<T: Send> Sync for Ring<T> {}

impl<T> Ring<T> {
    /// Positions go from 0 to twice the number of slots, so that full and empty differ.
    fn place(&self, position: usize) -> usize {
        if position < self.slots.len() { position } else { position - self.slots.len() }
    }

    fn next(&self, position: usize) -> usize {
        if position + 1 < 2 * self.slots.len() { position + 1 } else { 0 }
    }

    fn distance(&self, head: usize, tail: usize) -> usize {
        if head <= tail { tail - head } else { 2 * self.slots.len() - head + tail }
    }
}

struct Producer<T> {
    ring: Arc<Ring<T>>,
    head: usize,
    tail: usize,
}

struct Consumer<T> {
    ring: Arc<Ring<T>>,
    head: usize,
    tail: usize,
}

fn ring<T>(capacity: usize) -> (Producer<T>, Consumer<T>) {
    let slots = (0..capacity).map(|_| UnsafeCell::new(MaybeUninit::uninit())).collect();
    let ring = Arc::new(Ring { head: Apart(AtomicUsize::new(0)), tail: Apart(AtomicUsize::new(0)), slots });
    (Producer { ring: ring.clone(), head: 0, tail: 0 }, Consumer { ring, head: 0, tail: 0 })
}

impl<T> Producer<T> {
    fn is_full(&mut self) -> bool {
        if self.ring.distance(self.head, self.tail) < self.ring.slots.len() {
            return false;
        }
        self.head = self.ring.head.0.load(LOAD);
        self.ring.distance(self.head, self.tail) == self.ring.slots.len()
    }

    /// Only if the ring is not full.
    fn push(&mut self, value: T) {
        unsafe { (*self.ring.slots[self.ring.place(self.tail)].get()).write(value) };
        self.tail = self.ring.next(self.tail);
        self.ring.tail.0.store(self.tail, STORE);
    }
}

impl<T: Copy> Consumer<T> {
    fn peek(&mut self) -> Option<T> {
        if self.head == self.tail {
            self.tail = self.ring.tail.0.load(LOAD);
            if self.head == self.tail {
                return None;
            }
        }
        Some(unsafe { (*self.ring.slots[self.ring.place(self.head)].get()).assume_init() })
    }

    /// Only if something was seen.
    fn drop_first(&mut self) {
        self.head = self.ring.next(self.head);
        self.ring.head.0.store(self.head, STORE);
    }

    fn pop(&mut self) -> Option<T> {
        let value = self.peek()?;
        self.drop_first();
        Some(value)
    }
}

// ---- what is sent, and what is noted

#[derive(Clone, Copy)]
struct Payload {
    distance: u16,
    parent: Option<u16>,
    ring: u16,
}

#[derive(Clone, Copy)]
struct Frame {
    seq: u16,
    ack: u16,
    payload: Payload,
}

#[derive(Clone, Copy)]
#[allow(dead_code)]
enum Item {
    Frame(Frame),
    Noise,
}

#[derive(Clone, Copy)]
struct Stamped {
    stamp: u64,
    item: Item,
}

/// The kinds that no node uses give an entry the size that it has in `tokentree`.
#[derive(Clone, Copy)]
#[allow(dead_code)]
enum Event {
    Send { from: u16, to: u16 },
    Take { from: u16, to: u16 },
    Tick { node: u16 },
    Damage { from: u16, to: u16, item: Item },
}

#[derive(Clone, Copy)]
struct Entry {
    stamp: u64,
    event: Event,
}

// ---- a node

#[derive(Clone, Copy)]
struct Port {
    seq: u16,
    last: u16,
    staged: Payload,
    copy: Payload,
}

struct Ranges {
    nodes: u16,
    counter: u16,
    ring: u16,
}

struct Node {
    id: u16,
    is_root: bool,
    distance: u16,
    parent: Option<u16>,
    neighbours: Vec<u16>,
    ports: Vec<Port>,
    values: Vec<u16>,
    lent: Option<u16>,
    served: bool,
    ranges: Ranges,
}

fn lowest(ids: u64) -> Option<u16> {
    if ids == 0 { None } else { Some(ids.trailing_zeros() as u16) }
}

fn highest(ids: u64) -> Option<u16> {
    if ids == 0 { None } else { Some((63 - ids.leading_zeros()) as u16) }
}

impl Node {
    fn new(id: u16, nodes: u16, neighbours: Vec<u16>) -> Node {
        let unknown = Payload { distance: nodes, parent: None, ring: 0 };
        let port = Port { seq: 0, last: 0, staged: unknown, copy: unknown };
        Node {
            id,
            is_root: id == 0,
            distance: nodes,
            parent: None,
            neighbours,
            ports: vec![port; nodes as usize],
            values: vec![0; nodes as usize],
            lent: None,
            served: false,
            ranges: Ranges { nodes, counter: 2 * CAPACITY as u16 + 3, ring: 6 * (nodes - 1) + 1 },
        }
    }

    fn tree(&self) -> u64 {
        let mut ids = 0;
        for &w in &self.neighbours {
            if self.parent == Some(w) || self.ports[w as usize].copy.parent == Some(self.id) {
                ids |= 1 << w;
            }
        }
        ids
    }

    fn payload_for(&self, to: u16) -> Payload {
        let tree = self.tree();
        let ring = if to < 64 && tree >> to & 1 == 1 {
            let source = highest(tree & !(u64::MAX << to)).or(highest(tree)).unwrap_or(to);
            self.values[source as usize]
        } else {
            0
        };
        Payload { distance: self.distance, parent: self.parent, ring }
    }

    fn may_move(&self, tree: u64, chosen: Option<u16>, t: u16) -> bool {
        let (value, before) = (self.values[t as usize], self.ports[t as usize].copy.ring);
        let moves = if chosen == Some(t) { value == before } else { value != before };
        tree >> t & 1 == 1 && moves
    }

    fn fits(&self, frame: &Frame) -> bool {
        frame.seq < self.ranges.counter
            && frame.ack < self.ranges.counter
            && frame.payload.distance <= self.ranges.nodes
            && frame.payload.parent.is_none_or(|p| p < self.ranges.nodes)
            && frame.payload.ring < self.ranges.ring
    }

    fn tick(&mut self) {
        if self.is_root {
            (self.distance, self.parent) = (0, None);
        } else {
            let mut parent = self.neighbours[0];
            let mut least = self.ports[parent as usize].copy.distance;
            for &w in &self.neighbours[1..] {
                let distance = self.ports[w as usize].copy.distance;
                if distance < least {
                    (parent, least) = (w, distance);
                }
            }
            (self.distance, self.parent) = (self.ranges.nodes.min(least.saturating_add(1)), Some(parent));
        }
        let tree = self.tree();
        let chosen = if self.is_root { lowest(tree) } else { None };
        let privileged = self.neighbours.iter().any(|&t| self.may_move(tree, chosen, t));
        if self.lent.is_some() && !privileged {
            self.lent = None;
        }
        if self.lent.is_none() {
            self.served = false;
            for place in 0..self.neighbours.len() {
                let t = self.neighbours[place];
                if self.may_move(tree, chosen, t) {
                    let value = &mut self.values[t as usize];
                    *value = if chosen == Some(t) { (*value + 1) % self.ranges.ring } else { self.ports[t as usize].copy.ring };
                }
            }
        }
    }

    fn frame_for(&self, to: u16) -> Frame {
        let port = &self.ports[to as usize];
        Frame { seq: port.seq, ack: port.last, payload: port.staged }
    }

    fn take(&mut self, from: u16, item: &Item) {
        let Item::Frame(frame) = item else { return };
        if !self.fits(frame) {
            return;
        }
        let present = self.payload_for(from);
        let port = &mut self.ports[from as usize];
        if frame.ack == port.seq {
            port.seq = (port.seq + 1) % self.ranges.counter;
            port.staged = present;
        }
        if frame.seq != port.last {
            port.last = frame.seq;
            port.copy = frame.payload;
        }
    }
}

// ---- a node on its thread

struct Ends {
    neighbour: u16,
    out: Producer<Stamped>,
    places: Consumer<u64>,
    free: usize,
    came: Consumer<Stamped>,
    returned: Producer<u64>,
}

struct Runner {
    node: Node,
    ends: Vec<Ends>,
    clock: u64,
    journal: Vec<Entry>,
}

fn stamp_after(one: u64, other: u64) -> Option<u64> {
    let last = one.max(other);
    if last < LAST_STAMP { Some(last + 1) } else { None }
}

impl Ends {
    fn send(&mut self, clock: u64, item: Item) -> Option<u64> {
        if self.out.is_full() {
            return None;
        }
        let stamp = if self.free > 0 {
            let stamp = stamp_after(clock, 0)?;
            self.free -= 1;
            stamp
        } else {
            let stamp = stamp_after(clock, self.places.peek()?)?;
            self.places.drop_first();
            stamp
        };
        self.out.push(Stamped { stamp, item });
        Some(stamp)
    }

    fn take(&mut self, clock: u64) -> Option<Stamped> {
        if self.returned.is_full() {
            return None;
        }
        let came = self.came.pop()?;
        let stamp = clock.max(came.stamp) + 1;
        if stamp <= LAST_PLACE {
            self.returned.push(stamp);
        }
        Some(Stamped { stamp, item: came.item })
    }
}

impl Runner {
    fn note(&mut self, stamp: u64, event: Event) {
        self.clock = stamp;
        self.journal.push(Entry { stamp, event });
    }

    fn turn(&mut self) {
        let id = self.node.id;
        self.node.tick();
        self.note(self.clock + 1, Event::Tick { node: id });
        for place in 0..self.ends.len() {
            let to = self.ends[place].neighbour;
            let frame = self.node.frame_for(to);
            if let Some(stamp) = self.ends[place].send(self.clock, Item::Frame(frame)) {
                self.note(stamp, Event::Send { from: id, to });
            }
        }
        for place in 0..self.ends.len() {
            for _ in 0..2 {
                let from = self.ends[place].neighbour;
                if let Some(taken) = self.ends[place].take(self.clock) {
                    self.node.take(from, &taken.item);
                    self.note(taken.stamp, Event::Take { from, to: id });
                }
            }
        }
    }
}

/// The nodes of a network at the start, each with its ends of the links.
fn runners(nodes: u16, edges: &[(u16, u16)], turns: usize) -> Vec<Runner> {
    let mut runners: Vec<Runner> = (0..nodes)
        .map(|id| {
            let mut neighbours: Vec<u16> =
                edges.iter().filter_map(|&(a, b)| if a == id { Some(b) } else if b == id { Some(a) } else { None }).collect();
            neighbours.sort();
            let journal = Vec::with_capacity(turns * (1 + 3 * neighbours.len()));
            Runner { node: Node::new(id, nodes, neighbours), ends: Vec::new(), clock: 0, journal }
        })
        .collect();
    for &(a, b) in edges {
        let ((out, came), (returned, places)) = (ring(CAPACITY), ring(CAPACITY));
        let ((back, home), (spent, again)) = (ring(CAPACITY), ring(CAPACITY));
        runners[a as usize].ends.push(Ends { neighbour: b, out, places, free: CAPACITY, came: home, returned: spent });
        runners[b as usize].ends.push(Ends { neighbour: a, out: back, places: again, free: CAPACITY, came, returned });
    }
    for runner in &mut runners {
        runner.ends.sort_by_key(|ends| ends.neighbour);
    }
    runners
}

/// All entries, by stamp, then by node.
fn weave(journals: &[Vec<Entry>], out: &mut Vec<Event>) {
    let mut read = [0usize; 64];
    loop {
        let mut first: Option<(usize, Entry)> = None;
        for (node, journal) in journals.iter().enumerate() {
            if let Some(entry) = journal.get(read[node]) {
                if first.is_none_or(|(_, best)| entry.stamp < best.stamp) {
                    first = Some((node, *entry));
                }
            }
        }
        let Some((node, entry)) = first else { return };
        out.push(entry.event);
        read[node] += 1;
    }
}

fn main() {
    let words: Vec<String> = std::env::args().collect();
    let turns: usize = words[2].parse().unwrap();
    let (nodes, edges): (u16, Vec<(u16, u16)>) = match words[1].as_str() {
        "line" => (3, vec![(0, 1), (1, 2)]),
        "square" => (4, vec![(0, 1), (0, 2), (1, 3), (2, 3)]),
        _ => (16, (0..16).map(|v| (v, (v + 1) % 16)).collect()),
    };
    let mut started = runners(nodes, &edges, turns);
    let mut events = Vec::with_capacity(started.iter().map(|r| r.journal.capacity()).sum());
    thread::scope(|scope| {
        for runner in &mut started {
            scope.spawn(move || {
                for _ in 0..turns {
                    runner.turn();
                }
            });
        }
    });
    let distances: Vec<u16> = started.iter().map(|runner| runner.node.distance).collect();
    let journals: Vec<Vec<Entry>> = started.into_iter().map(|runner| runner.journal).collect();
    weave(&journals, &mut events);
    println!("{} events, distances {distances:?}", events.len());
}
