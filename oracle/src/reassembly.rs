//! Reassembly: the Rust's FragmentHandler beside a store, over schedules that only ever repeat a piece exactly.
//!
//! The Rust has no neighbours: a session has a FragmentHandler of its own. So four of them, one for each neighbour, stand beside
//! one store of the library; in half of the schedules only neighbour 0 sends. A handler keeps any number of messages, the library
//! 4 of a neighbour: the domain is schedules in which no neighbour ever has more than 4 open, and a schedule begins another
//! message only for a neighbour that has fewer on their way. 52 and 58, which the Rust does not know, do not come in it.
//!
//! The Rust remembers no finished message. So pieces of one that the library remembers, and new messages under its id, go to
//! the library alone, which has to refuse them with 57; what both answer afterwards is compared as before.
use crate::tally::Tally;
use oracle::{
    ffi::{Reply, Store},
    fragment::FragmentHandler,
    i2np::{Message, MessageType},
    inputs::hex,
    message::Block,
    primitives::MessageId,
    random::Random,
    runtime::{NoMetrics, Rt},
};
use std::collections::VecDeque;

const LISTED: [u8; 14] = [1, 2, 3, 10, 11, 18, 19, 20, 21, 22, 23, 24, 25, 26];
const NEIGHBOURS: usize = 4;

/// Of each neighbour: messages open, and finished ones remembered.
const OPEN: usize = 4;
const REMEMBERED: usize = 16;

/// Seconds after which a sweep drops an open message and forgets a finished one.
const LAPSE: u64 = 30;

/// A neighbour's message with the pieces that carry it.
#[derive(Debug, Clone)]
pub struct Whole {
    pub from: usize,
    pub id: u32,
    pub kind: u8,
    pub expires: u32,
    pub pieces: Vec<Vec<u8>>,
}

/// What came of a piece: kept, kept already, or a message's type, expiration and bytes.
#[derive(Debug, PartialEq)]
pub enum Answer {
    Kept,
    Again,
    Finished { id: u32, kind: u8, expires: u32, bytes: Vec<u8> },
    Refused(u8),
}

impl Answer {
    fn number(&self) -> u64 {
        match self {
            Answer::Kept => 0,
            Answer::Again => 54,
            Answer::Finished { .. } => 60,
            Answer::Refused(number) => *number as u64,
        }
    }
}

pub struct Both {
    /// One for each neighbour.
    pub rust: [FragmentHandler<Rt>; NEIGHBOURS],
    pub ours: Store,
    /// Pieces travel in payloads: the Rust parses them, and strawhub_block_deliver takes the block from its place.
    pub in_payloads: bool,
}

impl Both {
    pub fn new() -> Self {
        Self { rust: handlers(), ours: Store::new(), in_payloads: false }
    }

    pub fn renew(&mut self) {
        self.rust = handlers();
        self.ours.renew();
    }

    /// Hands a piece to the Rust; `held` because it does not tell a repeat from a new piece.
    pub fn rust(&mut self, m: &Whole, number: usize, held: bool) -> Answer {
        let (id, bytes) = (MessageId::from(m.id), m.pieces[number].clone());
        let message = match number {
            _ if self.in_payloads => self.parsed(m.from, &payload(m, number).0),
            0 => self.rust[m.from].first_fragment(MessageType(m.kind), id, m.expires, bytes),
            _ => self.rust[m.from].follow_on_fragment(id, number as u8, number + 1 == m.pieces.len(), bytes),
        };
        told(message, held)
    }

    /// As the Rust's session does: the payload's blocks, and the pieces among them to the handler.
    fn parsed(&mut self, from: usize, payload: &[u8]) -> Option<Message> {
        let piece = |block| match block {
            Block::FirstFragment { message_type, message_id, expiration, fragment } => {
                self.rust[from].first_fragment(message_type, message_id, expiration, fragment)
            }
            Block::FollowOnFragment { last, message_id, fragment_num, fragment } => {
                self.rust[from].follow_on_fragment(message_id, fragment_num, last, fragment)
            }
            _ => None,
        };
        Block::parse::<Rt>(payload).expect("a payload of good blocks").into_iter().filter_map(piece).last()
    }

    pub fn ours(&mut self, m: &Whole, number: usize, second: u64) -> Answer {
        let bytes = &m.pieces[number];
        if self.in_payloads {
            return self.delivered(m, number, second);
        }
        let reply = match number {
            0 => self.ours.first(m.from as u64, m.id, m.kind, m.expires, second, bytes),
            _ => self.ours.follow_on(m.from as u64, m.id, number as u8, number + 1 == m.pieces.len(), second, bytes),
        };
        said(m.id, reply, &self.ours.out)
    }

    fn delivered(&mut self, m: &Whole, number: usize, second: u64) -> Answer {
        let ((payload, at), mut told) = (payload(m, number), [0; 6]);
        let outcome = self.ours.deliver(m.from as u64, &payload, at, second, &mut told);
        match (outcome.number, told) {
            (0, [0, 0, 0, 0, 0, 0]) => Answer::Kept,
            (54, _) => Answer::Again,
            (60, [2, kind, id, expires, place, length]) => {
                let bytes = self.ours.out[place as usize..(place + length) as usize].to_vec();
                Answer::Finished { id: id as u32, kind: kind as u8, expires: expires as u32, bytes }
            }
            (number, _) => Answer::Refused(number as u8),
        }
    }
}

fn handlers() -> [FragmentHandler<Rt>; NEIGHBOURS] {
    std::array::from_fn(|_| FragmentHandler::new(NoMetrics))
}

/// A payload with a piece between a time and padding, and the piece's place.
fn payload(m: &Whole, number: usize) -> (Vec<u8>, usize) {
    let mut out = vec![0, 0, 4, 1, 2, 3, 4];
    let (at, piece) = (out.len(), &m.pieces[number]);
    let id = m.id.to_be_bytes();
    let (kind, head) = match number {
        0 => (4, [&[m.kind][..], &id, &m.expires.to_be_bytes()].concat()),
        _ => (5, [&[(number * 2 + (number + 1 == m.pieces.len()) as usize) as u8][..], &id].concat()),
    };
    out.push(kind);
    out.extend(((head.len() + piece.len()) as u16).to_be_bytes());
    out.extend(head);
    out.extend(piece);
    out.extend([254, 0, 1, 0]);
    (out, at)
}

pub fn told(message: Option<Message>, held: bool) -> Answer {
    match message {
        Some(m) => Answer::Finished {
            id: m.message_id,
            kind: m.message_type.0,
            expires: m.expiration.as_secs() as u32,
            bytes: m.payload,
        },
        None if held => Answer::Again,
        None => Answer::Kept,
    }
}

pub fn said(id: u32, reply: Reply, out: &[u8]) -> Answer {
    match reply.number {
        0 => Answer::Kept,
        54 => Answer::Again,
        60 => Answer::Finished { id, kind: reply.kind, expires: reply.expires, bytes: out[..reply.length].to_vec() },
        number => Answer::Refused(number),
    }
}

/// A message within document 01's limits.
fn whole(random: &mut Random, from: usize, id: u32) -> Whole {
    let count = match random.below(8) {
        0..=3 => random.range(2, 4),
        4..=5 => random.range(2, 12),
        6 => random.range(2, 128),
        _ => random.pick(&[2, 3, 43, 44, 127, 128]),
    };
    let most = (65_535 / count).min(1_500);
    let longest = match random.below(8) {
        0..=5 => most.min(40),
        6 => most.min(300),
        _ => most,
    };
    let lengths: Vec<usize> = (0..count).map(|_| random.range(1, longest)).collect();
    let pieces = lengths.iter().map(|n| random.bytes(*n)).collect();
    Whole { from, id, kind: random.pick(&LISTED), expires: random.next() as u32, pieces }
}

/// A message of 65,535 bytes in the fewest pieces that carry it.
fn largest(random: &mut Random, from: usize, id: u32) -> Whole {
    let mut m = whole(random, from, id);
    m.pieces = (0..44).map(|i| random.bytes(if i < 43 { 1_500 } else { 1_035 })).collect();
    m
}

/// The finished messages of a neighbour that the library remembers, the first finished first, each with the second of its
/// finishing piece.
#[derive(Default)]
struct Finished(VecDeque<(Whole, u64)>);

impl Finished {
    fn holds(&self, id: u32) -> bool {
        self.0.iter().any(|(m, _)| m.id == id)
    }

    fn add(&mut self, message: Whole, second: u64) {
        if self.0.len() == REMEMBERED {
            self.0.pop_front();
        }
        self.0.push_back((message, second));
    }

    fn sweep(&mut self, now: u64) {
        self.0.retain(|(_, second)| now < second + LAPSE);
    }
}

/// A message on its way: which pieces are still to come, which are held, and the second of the first that was sent.
struct Sending {
    message: Whole,
    left: Vec<usize>,
    held: Vec<bool>,
    opened: Option<u64>,
}

impl Sending {
    fn new(random: &mut Random, from: usize, id: u32) -> Self {
        let message = if random.once_in(200) { largest(random, from, id) } else { whole(random, from, id) };
        let n = message.pieces.len();
        let mut left: Vec<usize> = (0..n).collect();
        match random.below(4) {
            0 => left.reverse(),
            1 => (),
            _ => random.shuffle(&mut left),
        }
        Self { message, left, held: vec![false; n], opened: None }
    }

    /// The next piece to send; now and then one that is held.
    fn next(&mut self, random: &mut Random) -> usize {
        let sent: Vec<usize> = if random.once_in(8) { (0..self.held.len()).filter(|i| self.held[*i]).collect() } else { vec![] };
        if !sent.is_empty() {
            return random.pick(&sent);
        }
        self.left.pop().expect("a message that is not finished has pieces left")
    }
}

/// Sends one piece to both sides and compares; true where its message is finished.
fn send(both: &mut Both, tally: &mut Tally, m: &Whole, number: usize, held: bool, second: u64) -> bool {
    let (rust, ours) = (both.rust(m, number, held), both.ours(m, number, second));
    let input = || {
        let (n, bytes) = (m.pieces.len(), hex(&m.pieces[number]));
        format!("neighbour {} id {} piece {number} of {n} (held: {held}), bytes {bytes}", m.from, m.id)
    };
    tally.compare(rust.number(), &rust, &ours, input);
    rust.number() == 60
}

/// Sends a piece of a remembered id to the library alone: 57.
fn send_late(both: &mut Both, tally: &mut Tally, m: &Whole, number: usize, second: u64) {
    let ours = both.ours(m, number, second);
    let input = || format!("neighbour {} id {} piece {number} of {}, remembered", m.from, m.id, m.pieces.len());
    tally.compare(57, &Answer::Refused(57), &ours, input);
}

/// Up to 4 messages of each neighbour at once, their pieces in any order between each other, new messages as others finish;
/// late repeats. Some ids are used by several neighbours.
struct Schedule<'a> {
    both: &'a mut Both,
    random: &'a mut Random,
    tally: &'a mut Tally,
    /// How many neighbours send, and how many messages each has on their way at most.
    neighbours: usize,
    most: usize,
    open: Vec<Sending>,
    finished: [Finished; NEIGHBOURS],
    second: u64,
}

impl Schedule<'_> {
    /// Begins another message of a neighbour that may have one more open; where its id is remembered, its first piece goes to
    /// the library alone.
    fn begin(&mut self) {
        let from = self.random.below(self.neighbours);
        let fixed = self.random.once_in(4);
        let id = if fixed { self.random.pick(&[0, 1, 2, u32::MAX]) } else { self.random.next() as u32 };
        let of_it = self.open.iter().filter(|s| s.message.from == from);
        if of_it.clone().count() >= self.most || of_it.clone().any(|s| s.message.id == id) {
            return;
        }
        let begun = Sending::new(self.random, from, id);
        if self.finished[from].holds(id) {
            return send_late(self.both, self.tally, &begun.message, 0, self.second);
        }
        self.open.push(begun);
    }

    /// A piece of a neighbour's remembered message once more.
    fn repeat(&mut self) {
        let Finished(of_it) = &self.finished[self.random.below(self.neighbours)];
        if of_it.is_empty() {
            return;
        }
        let (m, _) = &of_it[self.random.below(of_it.len())];
        send_late(self.both, self.tally, m, self.random.below(m.pieces.len()), self.second);
    }

    /// A sweep of the library's store where it drops no open message, for the Rust drops none either.
    fn sweep(&mut self) {
        let young = |s: &Sending| s.opened.map_or(true, |at| self.second < at + LAPSE);
        if self.open.iter().all(young) {
            self.both.ours.sweep(self.second);
            self.finished.iter_mut().for_each(|f| f.sweep(self.second));
        }
    }

    /// One piece of an open message to both sides; false where it finishes on one side alone.
    fn piece(&mut self) -> bool {
        let which = self.random.below(self.open.len());
        let s = &mut self.open[which];
        let number = s.next(self.random);
        let held = s.held[number];
        s.held[number] = true;
        s.opened = s.opened.or(Some(self.second));
        let all = s.held.iter().all(|h| *h);
        if send(self.both, self.tally, &s.message, number, held, self.second) != all {
            return false;
        }
        if all {
            let message = self.open.swap_remove(which).message;
            self.finished[message.from].add(message, self.second);
        }
        true
    }
}

fn schedule(both: &mut Both, random: &mut Random, tally: &mut Tally) {
    both.renew();
    both.in_payloads = random.once_in(2);
    let neighbours = random.pick(&[1, NEIGHBOURS]);
    let most = random.pick(&[1, 2, 3, OPEN, OPEN]);
    let (open, finished) = (Vec::new(), Default::default());
    let mut s = Schedule { both, random, tally, neighbours, most, open, finished, second: 0 };
    for step in 0..500 {
        s.second = step / 4;
        if s.random.once_in(20) {
            s.sweep();
        }
        if s.open.is_empty() || s.random.once_in(3) {
            s.begin();
        }
        if s.random.once_in(12) {
            s.repeat();
        }
        if !s.tally.wants() || !s.open.is_empty() && !s.piece() {
            return;
        }
    }
}

/// Every order of the pieces of a short message of neighbour 0, each piece once more at every place where it is held, and after
/// the end.
fn orders(both: &mut Both, random: &mut Random, tally: &mut Tally, count: usize) {
    let mut m = whole(random, 0, 7);
    m.pieces = (0..count).map(|i| vec![i as u8; i + 1]).collect();
    let mut order: Vec<usize> = (0..count).collect();
    permutations(&mut order, count, &mut |order| {
        for again in 0..count {
            both.renew();
            for (i, number) in order.iter().enumerate() {
                send(both, tally, &m, *number, false, 0);
                if i + 1 < count && i >= again {
                    send(both, tally, &m, order[again], true, 0);
                }
            }
            send_late(both, tally, &m, order[again], 0);
        }
    });
}

/// Heap's way through all orders.
fn permutations(order: &mut Vec<usize>, n: usize, each: &mut impl FnMut(&[usize])) {
    if n < 2 {
        return each(order);
    }
    for i in 0..n {
        permutations(order, n - 1, each);
        order.swap(if n % 2 == 0 { i } else { 0 }, n - 1);
    }
}

pub fn compare(seed: u64, count: u64) -> (u64, u64) {
    let (mut tally, mut random, mut both) = (Tally::new("reassembly", count), Random::new(seed), Both::new());
    for pieces in 2..=if count >= 100_000 { 6 } else { 4 } {
        orders(&mut both, &mut random, &mut tally, pieces);
    }
    while tally.wants() {
        schedule(&mut both, &mut random, &mut tally);
    }
    tally.close(&[0, 54, 57, 60])
}
