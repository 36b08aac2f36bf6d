//! Acknowledgements: the Rust's RemoteAckManager beside a tracker, over sequences of calls in the Rust's domain.
use crate::tally::Tally;
use oracle::{
    ack::{AckInfo, RemoteAckManager},
    ffi::{ack_expand, Tracker},
    message::Block,
    random::Random,
    runtime::Rt,
};

const WINDOW: u32 = 255;

/// Both sides of one sequence, and what tells whether it is still in the domain.
pub struct Both {
    pub rust: RemoteAckManager,
    pub ours: Tracker,
    pub highest: u32,
    /// Numbers that came below the highest: only they can stand below a hole of the Rust's set.
    late: Vec<u32>,
    calls: Vec<u32>,
}

impl Both {
    pub fn new() -> Self {
        Self { rust: RemoteAckManager::new(), ours: Tracker::new(), highest: 0, late: Vec::new(), calls: Vec::new() }
    }

    pub fn register(&mut self, number: u32) -> u32 {
        self.rust.register_pkt(number);
        self.calls.push(number);
        if number > self.highest && number - self.highest <= WINDOW {
            self.highest = number;
        } else if number <= self.highest {
            self.late.push(number);
        }
        self.ours.register(number)
    }

    /// How many numbers from the highest down the Rust's set holds without a hole. Its `is_duplicate` says yes of every
    /// number in the set, missing ones too, so that the set can be seen from outside.
    fn held(&self) -> u32 {
        let mut n = 0;
        while n <= self.highest && self.rust.is_duplicate(self.highest - n) {
            n += 1;
        }
        n
    }

    /// Whether a report now is in the domain as far as the set goes: not empty, and nothing below a hole.
    fn whole(&mut self, held: u32) -> bool {
        let Self { rust, late, highest, .. } = self;
        let low = (*highest + 1).saturating_sub(held);
        late.retain(|n| rust.is_duplicate(*n));
        held > 0 && late.iter().all(|n| *n >= low)
    }

    /// Compares a report; false where the sequence left the domain.
    pub fn report(&mut self, tally: &mut Tally) -> bool {
        let held = self.held();
        let whole = self.whole(held);
        let info = self.rust.ack_info();
        // a clamped run names fewer numbers than the set holds
        if !whole || named(&info) != held {
            return false;
        }
        let received = cut(info.highest_seen, expand(&info));
        let rust = (0, info.highest_seen, received.clone(), received);
        let (number, through, list) = our_report(&self.ours);
        let ours = (number, through, list, read_by_rust(&self.ours));
        tally.compare(0, &rust, &ours, || format!("registered {:?}, reported last", self.calls));
        self.calls.push(u32::MAX);
        true
    }
}

/// How many numbers a report speaks of, received or missing.
fn named(info: &AckInfo) -> u32 {
    let pairs = info.ranges.iter().flatten().map(|(nack, ack)| *nack as u32 + *ack as u32);
    1 + info.num_acks as u32 + pairs.sum::<u32>()
}

/// The received numbers that a report in the Rust's form names, falling.
fn expand(info: &AckInfo) -> Vec<u32> {
    let mut at = info.highest_seen;
    let mut numbers = vec![at];
    let mut take = |numbers: &mut Vec<u32>, skip: u8, count: u8| {
        at -= skip as u32;
        for _ in 0..count {
            at -= 1;
            numbers.push(at);
        }
    };
    take(&mut numbers, 0, info.num_acks);
    for (nack, ack) in info.ranges.iter().flatten() {
        take(&mut numbers, *nack, *ack);
    }
    numbers
}

fn cut(highest: u32, mut numbers: Vec<u32>) -> Vec<u32> {
    numbers.retain(|n| highest - *n < WINDOW);
    numbers
}

/// Our report's answer, through number and received numbers, by our own expansion.
fn our_report(tracker: &Tracker) -> (u32, u32, Vec<u32>) {
    let (mut out, mut pairs, mut list) = ([0; 3], [0; 254], [0; 256]);
    let number = tracker.report(&mut out, &mut pairs);
    let expanded = ack_expand(out[0] as u32, out[1] as u8, &pairs[..out[2] as usize], &mut list);
    (number + expanded.number, out[0] as u32, list[..expanded.count].to_vec())
}

/// What the Rust takes our Ack block to name.
fn read_by_rust(tracker: &Tracker) -> Vec<u32> {
    let mut room = [0; 262];
    let length = tracker.ack_block(&mut room).value as usize;
    match Block::parse::<Rt>(&room[..length]).as_deref() {
        Ok([Block::Ack { ack_through, num_acks, ranges }]) => {
            expand(&AckInfo { highest_seen: *ack_through, num_acks: *num_acks, ranges: Some(ranges.clone()) })
        }
        _ => Vec::new(),
    }
}

/// The next number: mostly a little above the highest, sometimes late, again, far or too far.
fn number(random: &mut Random, highest: u32, gap: usize) -> u32 {
    match random.below(16) {
        0..=6 => highest + 1,
        7..=9 => highest + random.range(1, gap) as u32,
        10..=12 => highest.saturating_sub(random.below(gap * 2) as u32),
        13 => highest.saturating_sub(random.below(260) as u32),
        14 => highest + random.range(200, 258) as u32,
        _ => highest,
    }
}

/// A sequence: up to 100 reports, with some calls before each.
fn sequence(random: &mut Random, tally: &mut Tally) {
    let mut both = Both::new();
    let gap = random.pick(&[1, 2, 3, 8, 40, 255]);
    let most = random.pick(&[1, 4, 12, 60]);
    for _ in 0..100 {
        for _ in 0..random.range(1, most) {
            let n = number(random, both.highest, gap);
            both.register(n);
        }
        if !tally.wants() {
            return;
        }
        if !both.report(tally) {
            tally.outside += 1;
            return;
        }
    }
}

/// All sequences of three calls, a report after each, over numbers that lie close together and at the window's edges.
fn short(tally: &mut Tally, step: usize) {
    const NUMBERS: [u32; 16] = [0, 1, 2, 3, 4, 5, 100, 127, 128, 253, 254, 255, 256, 257, 509, 510];
    for i in (0..16 * 16 * 16).step_by(step) {
        let mut both = Both::new();
        for n in [NUMBERS[i % 16], NUMBERS[i / 16 % 16], NUMBERS[i / 256]] {
            both.register(n);
            if !both.report(tally) {
                tally.outside += 1;
                break;
            }
        }
    }
}

pub fn compare(seed: u64, count: u64) -> (u64, u64) {
    let (mut tally, mut random) = (Tally::new("acks", count), Random::new(seed));
    short(&mut tally, (1_000_000 / count.max(1)).clamp(1, 16) as usize);
    while tally.wants() {
        sequence(&mut random, &mut tally);
    }
    tally.close(&[0])
}
