//! The sender's list beside a `BTreeMap` of the same rules, in plain Rust: the original has no such list. Where a call uses its state up,
//! each side gets new ones before its round, outside its time: copies of the record, clones of the map. An ack gives the numbers that it
//! settles in a list that is not cleared, the map's in a `Vec` that never grows.
use crate::{table, time, Row, Work};
use oracle::ffi::Sender;
use std::{cell::RefCell, collections::BTreeMap, hint::black_box, rc::Rc};

const FULL: u32 = 256;

/// So many states are made ready for a round.
const STATES: usize = 32;

/// The rules over a map from a number to the second and the resends.
#[derive(Clone, Default)]
struct Plain {
    highest: u32,
    packets: BTreeMap<u32, (u64, u32)>,
}

impl Plain {
    fn send(&mut self, second: u64) -> Result<u32, u32> {
        if self.highest == u32::MAX {
            return Err(71);
        }
        if self.packets.len() == FULL as usize {
            return Err(70);
        }
        self.highest += 1;
        self.packets.insert(self.highest, (second, 0));
        Ok(self.highest)
    }

    fn resend(&mut self, number: u32, second: u64) -> Result<u32, u32> {
        if !self.packets.contains_key(&number) {
            return Err(73);
        }
        if self.highest == u32::MAX {
            return Err(71);
        }
        let (_, resends) = self.packets.remove(&number).ok_or(73u32)?;
        self.highest += 1;
        self.packets.insert(self.highest, (second, resends + 1));
        Ok(self.highest)
    }

    fn ack(&mut self, a: &Ack, settled: &mut Vec<u32>) -> Result<usize, u32> {
        let reach = u32::from(a.count) + a.pairs.chunks_exact(2).map(|p| u32::from(p[0]) + u32::from(p[1])).sum::<u32>();
        if reach > a.through {
            return Err(44);
        }
        if a.through > self.highest {
            return Err(72);
        }
        settled.clear();
        let mut settle = |number| {
            if self.packets.remove(&number).is_some() {
                settled.push(number);
            }
        };
        let mut low = a.through - u32::from(a.count);
        (low..=a.through).rev().for_each(&mut settle);
        for pair in a.pairs.chunks_exact(2) {
            let above = low - u32::from(pair[0]);
            low = above - u32::from(pair[1]);
            (low..above).rev().for_each(&mut settle);
        }
        Ok(settled.len())
    }
}

/// An Ack block.
#[derive(Clone)]
struct Ack {
    through: u32,
    count: u8,
    pairs: Vec<u8>,
}

fn ack(through: u32, count: u8, pairs: &[u8]) -> Ack {
    Ack { through, count, pairs: pairs.to_vec() }
}

fn taken(sender: &mut Sender, a: &Ack, settled: &mut [u32; 256]) -> usize {
    let outcome = sender.ack(a.through, a.count, &a.pairs, settled);
    assert_eq!(outcome.number, 0);
    outcome.value as usize
}

/// Both sides with the numbers from..=highest outstanding, and all below them settled.
fn outstanding(from: u32, highest: u32) -> (Plain, Sender) {
    let (mut plain, mut sender) = (Plain::default(), Sender::new());
    for n in 1..=highest {
        assert_eq!((plain.send(9), sender.send(9).value), (Ok(n), n.into()));
        if n < from {
            let one = ack(n, 0, &[]);
            assert_eq!((plain.ack(&one, &mut Vec::new()), taken(&mut sender, &one, &mut [0; 256])), (Ok(1), 1));
        }
    }
    (plain, sender)
}

/// Both settle the same numbers.
fn compare((mut plain, mut sender): (Plain, Sender), a: &Ack) -> usize {
    let (mut list, mut settled) = (Vec::new(), [0; 256]);
    plain.ack(a, &mut list).expect("a good Ack block");
    let count = taken(&mut sender, a, &mut settled);
    list.reverse();
    assert_eq!(list, settled[..count]);
    assert!(plain.packets.iter().map(|(n, p)| (*n, p.0, p.1)).eq(sender.outstanding()));
    count
}

/// A side's states, made ready before each round, and the call on each of them.
fn on_each<S: Clone + 'static>(state: S, mut call: impl FnMut(&mut S) + 'static) -> (Work, Work) {
    let states = Rc::new(RefCell::new(vec![state.clone(); STATES]));
    let renewed = states.clone();
    let ready = move || renewed.borrow_mut().iter_mut().for_each(|s| s.clone_from(&state));
    (Box::new(ready), Box::new(move || states.borrow_mut().iter_mut().for_each(|s| call(black_box(s)))))
}

fn acks(name: &str, settles: usize, state: (Plain, Sender), a: Ack) -> Row {
    assert_eq!(compare(state.clone(), &a), settles);
    let (mut list, mut settled, b) = (Vec::with_capacity(FULL as usize), [0; 256], a.clone());
    let (rust_ready, rust) = on_each(state.0, move |plain| {
        black_box((plain.ack(black_box(&a), &mut list), &list)).0.expect("a good Ack block");
    });
    let (ours_ready, ours) = on_each(state.1, move |sender| {
        black_box((taken(sender, black_box(&b), &mut settled), &settled));
    });
    Row { name: name.to_string(), rust, ours, ready: Some((rust_ready, ours_ready)), copy: None, operations: STATES }
}

/// 256 sends from an empty list.
fn sends() -> Row {
    let (plain, sender) = outstanding(1, 0);
    let (rust_ready, rust) = on_each(plain, |plain| {
        (0..FULL).for_each(|second| drop(black_box(plain.send(second.into()).expect("there is room"))));
    });
    let (ours_ready, ours) = on_each(sender, |sender| {
        (0..FULL).for_each(|second| assert_eq!(black_box(sender.send(second.into())).number, 0));
    });
    let (name, operations) = ("a send, 0 to 255 outstanding".to_string(), STATES * FULL as usize);
    Row { name, rust, ours, ready: Some((rust_ready, ours_ready)), copy: None, operations }
}

/// Resends of the number so far below the highest given out, 256 being outstanding; the state lives on.
fn resends(name: &str, below: u32) -> Row {
    let (mut plain, mut sender) = outstanding(1, FULL);
    let (mut highest, calls) = (FULL, 1_000);
    let rust = move || {
        for second in 0..calls {
            let number = black_box(plain.highest - below);
            black_box(plain.resend(number, second).expect("it is outstanding"));
        }
    };
    let ours = move || {
        for second in 0..calls {
            let outcome = black_box(sender.resend(black_box(highest - below), second));
            assert_eq!(outcome.number, 0);
            highest = outcome.value as u32;
        }
    };
    let operations = calls as usize;
    Row { name: name.to_string(), rust: Box::new(rust), ours: Box::new(ours), ready: None, copy: None, operations }
}

/// A cycle: so many sends, then an ack that settles as many, the oldest, and leaves some outstanding. It names all numbers from there
/// down to so many below. The state lives on.
fn cycle(name: &str, sent: u32, left: u32, count: u8) -> Row {
    let (mut plain, mut sender) = outstanding(301, 300 + left);
    let report = move |highest: u32| ack(highest - left, count, &[]);
    let cycles = 64;
    let (mut list, mut settled) = (Vec::with_capacity(FULL as usize), [0; 256]);
    let rust = move || {
        for _ in 0..cycles {
            (0..sent).for_each(|second| drop(black_box(plain.send(second.into()).expect("there is room"))));
            let a = black_box(report(plain.highest));
            assert_eq!(plain.ack(&a, &mut list), Ok(sent as usize));
            black_box(&list);
        }
    };
    let mut highest = 0;
    let ours = move || {
        for _ in 0..cycles {
            (0..sent).for_each(|second| highest = black_box(sender.send(second.into())).value as u32);
            let a = black_box(report(highest));
            assert_eq!(taken(&mut sender, &a, &mut settled), sent as usize);
            black_box(&settled);
        }
    };
    Row { name: name.to_string(), rust: Box::new(rust), ours: Box::new(ours), ready: None, copy: None, operations: cycles }
}

pub fn rows() -> Vec<Row> {
    let full = || outstanding(1, FULL);
    vec![
        acks("an ack, 256 outstanding, all settled", 256, full(), ack(256, 255, &[])),
        acks("an ack of 127 pairs, 256 outstanding, every second one settled", 128, full(), ack(256, 0, &[1; 254])),
        acks("a window's report, 256 outstanding, the newest 16 settled", 16, full(), ack(256, 15, &[239, 0])),
        acks("an ack of one number, the newest of 256 outstanding", 1, full(), ack(256, 0, &[])),
        acks("an ack of one number, the oldest of 256 outstanding", 1, full(), ack(1, 0, &[])),
        sends(),
        cycle("256 sends, and an ack that settles them", 256, 0, 255),
        cycle("16 sends, and a window's report that settles 16 and leaves 200", 16, 200, 254),
        resends("a resend of the oldest of 256 outstanding", 255),
        resends("a resend of the newest of 256 outstanding", 0),
    ]
}

/// An ack by how many packets are outstanding and how many pairs it has: it grows with their sum, not their product. It settles the newest
/// alone, and its pairs name no number over the same span.
pub fn growth(rounds: usize) {
    println!("\n| An ack here, ns: outstanding | 0 pairs | 32 pairs | 127 pairs |\n|---|---|---|---|");
    let mut ratios = Vec::new();
    for n in [64, 128, 256] {
        let [none, some, most] = [[0, 0], [32, 8], [127, 2]].map(|[pairs, missing]| {
            let state = outstanding(1_001 - n, 1_000);
            let (a, mut settled) = (ack(1_000, 0, &[missing, 0].repeat(pairs.into())), [0; 256]);
            assert_eq!(compare(state.clone(), &a), 1);
            let (mut ready, mut work) = on_each(state.1, move |sender| {
                black_box((taken(sender, black_box(&a), &mut settled), &settled));
            });
            let round = |_| {
                ready();
                time(&mut work, STATES)
            };
            table::quartiles(&(0..rounds).map(round).collect::<Vec<_>>())[1]
        });
        println!("| {n} | {none:.1} | {some:.1} | {most:.1} |");
        ratios.push(most / some);
    }
    let [few, _, many] = ratios[..] else { unreachable!() };
    println!("\n127 pairs cost {few:.2} of what 32 cost with 64 outstanding, {many:.2} with 256; by the product it would be near 4");
}
