//! Registering, asking and reporting. A side's state lives on from round to round; the Rust's grows until it is asked.
use crate::Row;
use oracle::{ack::RemoteAckManager, ffi::Tracker};
use std::hint::black_box;

const CALLS: u32 = 1_000;

fn row(name: &str, rust: impl FnMut() + 'static, ours: impl FnMut() + 'static) -> Row {
    Row { name: name.to_string(), rust: Box::new(rust), ours: Box::new(ours), ready: None, copy: None, operations: CALLS as usize }
}

/// Registers numbers a step apart, from a new state in each round.
fn register(name: &str, step: u32) -> Row {
    let numbers = move || (1..=CALLS).map(move |i| black_box(i * step));
    let rust = move || {
        let mut manager = RemoteAckManager::new();
        numbers().for_each(|n| manager.register_pkt(n));
        black_box(&manager);
    };
    let ours = move || {
        let mut tracker = Tracker::new();
        numbers().for_each(|n| assert_eq!(tracker.register(n), 0));
        black_box(&tracker);
    };
    row(name, rust, ours)
}

/// Both sides after 300 numbers but those that are missing, asked once so that the Rust's set is cut to the window.
fn after(missing: fn(u32) -> bool) -> (RemoteAckManager, Tracker) {
    let (mut manager, mut tracker) = (RemoteAckManager::new(), Tracker::new());
    for n in (1..=300).filter(|n| !missing(*n)) {
        manager.register_pkt(n);
        assert_eq!(tracker.register(n), 0);
    }
    manager.ack_info();
    (manager, tracker)
}

fn report(name: &str, missing: fn(u32) -> bool) -> Row {
    let (mut manager, tracker) = after(missing);
    let rust = move || (0..CALLS).for_each(|_| drop(black_box(manager.ack_info())));
    let ours = move || {
        let (mut out, mut pairs) = ([0; 3], [0; 254]);
        for _ in 0..CALLS {
            assert_eq!(black_box(&tracker).report(&mut out, &mut pairs), 0);
            black_box((&out, &pairs));
        }
    };
    row(name, rust, ours)
}

fn duplicate() -> Row {
    let (manager, tracker) = after(|n| n % 8 == 0);
    let numbers = || (0..CALLS).map(|i| black_box(46 + i % 255));
    let rust = move || assert!(numbers().filter(|n| manager.is_duplicate(*n)).count() > 0);
    let ours = move || assert!(numbers().filter(|n| tracker.duplicate(*n) == 1).count() > 0);
    row("is_duplicate", rust, ours)
}

pub fn rows() -> Vec<Row> {
    vec![
        register("register in order", 1),
        register("register, two of three missing", 3),
        report("report, nothing missing", |_| false),
        report("report, one gap", |n| n == 200),
        report("report, every 8th missing", |n| n % 8 == 0),
        report("report, every second missing", |n| n % 2 == 1),
        duplicate(),
    ]
}
