use super::{Row, Seen};
use crate::reassembly::{said, told, Answer};
use oracle::{
    ffi::Store,
    fragment::FragmentHandler,
    i2np::MessageType,
    primitives::MessageId,
    runtime::{NoMetrics, Rt, NOW},
};
use std::{
    future::Future,
    pin::Pin,
    sync::atomic::Ordering,
    task::Context,
};

pub const ROWS: &[Row] = &[
    ("0=`0a`, 2 last=`0c`, 5=`0f`, 1=`0b`", above_the_last),
    ("0=`0a`, 0=`0b`, 1 last=`0c`", first_again),
    ("1 last=`0a`, 3 last=`0b`, 0=`0c`", second_last),
    ("0=`0a`, 2=`0b`, 1 last=`0c`", last_below),
    ("0=`0a`, 2 last=`0c`, 1 last=`0b`", lower_last),
    ("follow-on 0 last=`0a`, then first=`0b`", zero_last),
    ("follow-on 0=`00`, 1 last=`0b`, then first=`0a`", zero_overwritten),
    ("follow-on number 200=`0a`", number_200),
    ("an empty first piece, 1 last=`0b`", empty),
    ("0 of 1,501 bytes, 1 last=`0b`", long_piece),
    ("44 pieces of 1,500 bytes", long_message),
    ("5 messages open, then each one's last", five),
    ("0=`0a` at second 0, a sweep at 30, 1 last=`0b`", lapse),
    ("0=`0a`, 1 last=`0b`, then both again", sent_again),
    ("0=`0a`, 1 last=`0b`, 1 last=`0b` again, then 0=`0c`", late_piece),
];

/// One id of neighbour 0, type 20, expiration 9, on both sides; what each said of every piece.
struct Both {
    rust: FragmentHandler<Rt>,
    ours: Store,
    said: Vec<(Answer, Answer)>,
}

impl Both {
    fn new() -> Self {
        Self { rust: FragmentHandler::new(NoMetrics), ours: Store::new(), said: Vec::new() }
    }

    fn first_of(mut self, id: u32, bytes: &[u8]) -> Self {
        let rust = told(self.rust.first_fragment(MessageType(20), MessageId::from(id), 9, bytes.to_vec()), false);
        let ours = said(id, self.ours.first(0, id, 20, 9, 0, bytes), &self.ours.out);
        self.said.push((rust, ours));
        self
    }

    fn next_of(mut self, id: u32, number: u8, last: bool, bytes: &[u8]) -> Self {
        let rust = told(self.rust.follow_on_fragment(MessageId::from(id), number, last, bytes.to_vec()), false);
        let ours = said(id, self.ours.follow_on(0, id, number, last, 0, bytes), &self.ours.out);
        self.said.push((rust, ours));
        self
    }

    fn first(self, byte: u8) -> Self {
        self.first_of(1, &[byte])
    }

    fn next(self, number: u8, byte: u8) -> Self {
        self.next_of(1, number, false, &[byte])
    }

    fn last(self, number: u8, byte: u8) -> Self {
        self.next_of(1, number, true, &[byte])
    }

    /// Whether each side said these.
    fn seen<const N: usize>(&self, rust: [Answer; N], ours: [Answer; N]) -> Seen {
        let theirs = self.said.iter().map(|(r, _)| r).eq(rust.iter());
        (theirs, self.said.iter().map(|(_, o)| o).eq(ours.iter()))
    }
}

fn message(bytes: &[u8]) -> Answer {
    Answer::Finished { id: 1, kind: 20, expires: 9, bytes: bytes.to_vec() }
}

use Answer::{Kept, Refused};

fn above_the_last() -> Seen {
    let both = Both::new().first(0x0a).last(2, 0x0c).next(5, 0x0f).next(1, 0x0b);
    both.seen([Kept, Kept, message(&[10, 12, 15]), Kept], [Kept, Kept, Refused(55), message(&[10, 11, 12])])
}

fn first_again() -> Seen {
    let both = Both::new().first(0x0a).first(0x0b).last(1, 0x0c);
    both.seen([Kept, Kept, message(&[11, 12])], [Kept, Refused(55), message(&[10, 12])])
}

fn second_last() -> Seen {
    let both = Both::new().last(1, 0x0a).last(3, 0x0b).first(0x0c);
    both.seen([Kept, Kept, Kept], [Kept, Refused(55), message(&[12, 10])])
}

fn last_below() -> Seen {
    let both = Both::new().first(0x0a).next(2, 0x0b).last(1, 0x0c);
    both.seen([Kept, Kept, Kept], [Kept, Kept, Refused(55)])
}

fn lower_last() -> Seen {
    let both = Both::new().first(0x0a).last(2, 0x0c).last(1, 0x0b);
    both.seen([Kept, Kept, Kept], [Kept, Kept, Refused(55)])
}

fn zero_last() -> Seen {
    let both = Both::new().last(0, 0x0a).first(0x0b);
    both.seen([Kept, message(&[11])], [Refused(51), Kept])
}

fn zero_overwritten() -> Seen {
    let both = Both::new().next(0, 0x00).last(1, 0x0b).first(0x0a);
    both.seen([Kept, Kept, message(&[10, 11])], [Refused(51), Kept, message(&[10, 11])])
}

fn number_200() -> Seen {
    Both::new().next(200, 0x0a).seen([Kept], [Refused(51)])
}

fn empty() -> Seen {
    let both = Both::new().first_of(1, &[]).last(1, 0x0b);
    both.seen([Kept, message(&[11])], [Refused(50), Kept])
}

fn long_piece() -> Seen {
    let mut whole = vec![7; 1501];
    let both = Both::new().first_of(1, &whole).last(1, 0x0b);
    whole.push(11);
    both.seen([Kept, message(&whole)], [Refused(50), Kept])
}

fn long_message() -> Seen {
    let piece = [7; 1500];
    let both = (1..44).fold(Both::new().first_of(1, &piece), |b, i| b.next_of(1, i, i == 43, &piece));
    let (rust, ours) = both.said.last().expect("44 answers");
    (*rust == message(&[7; 66_000]), *ours == Refused(53))
}

fn five() -> Seen {
    let open = (1..=5).fold(Both::new(), |b, id| b.first_of(id, &[1]));
    let done = (1..=5).fold(open, |b, id| b.next_of(id, 1, true, &[2]));
    let finished = |a: &Answer| matches!(a, Answer::Finished { .. });
    let rust = done.said[5..].iter().all(|(r, _)| finished(r));
    let ours = done.said[5..9].iter().all(|(_, o)| finished(o));
    (rust, ours && done.said[4].1 == Refused(52) && done.said[9].1 == Kept)
}

fn sent_again() -> Seen {
    let both = Both::new().first(0x0a).last(1, 0x0b).first(0x0a).last(1, 0x0b);
    let whole = || message(&[10, 11]);
    both.seen([Kept, whole(), Kept, whole()], [Kept, whole(), Refused(57), Refused(57)])
}

/// The late piece waits in the Rust, and is joined to another message's first.
fn late_piece() -> Seen {
    let both = Both::new().first(0x0a).last(1, 0x0b).last(1, 0x0b).first(0x0c);
    let whole = || message(&[10, 11]);
    both.seen([Kept, whole(), Kept, message(&[12, 11])], [Kept, whole(), Refused(57), Refused(57)])
}

/// The Rust looks only every 300 seconds.
fn lapse() -> Seen {
    NOW.store(0, Ordering::Relaxed);
    let mut both = Both::new().first(0x0a);
    NOW.store(30, Ordering::Relaxed);
    let waker = futures::task::noop_waker();
    let _ = Pin::new(&mut both.rust).poll(&mut Context::from_waker(&waker));
    let swept = both.ours.sweep(30) == 0;
    let both = both.last(1, 0x0b);
    let (rust, ours) = both.seen([Kept, message(&[10, 11])], [Kept, Kept]);
    (rust, ours && swept)
}
