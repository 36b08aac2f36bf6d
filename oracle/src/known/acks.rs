use super::{Row, Seen};
use oracle::{ack::RemoteAckManager, ffi::Tracker};

pub const ROWS: &[Row] = &[
    ("register 5, ask 4", missing),
    ("a report before any number", nothing),
    ("256 first, then a report", far),
    ("255 first, report twice", twice),
    ("200, 400, report, 100, report", hole),
    ("1 to 300, report twice", long),
    ("1 to 300, then 302, report", clamped),
];

/// Through, count and pairs of a report.
type Report = (u32, u8, Vec<(u8, u8)>);

struct Both(RemoteAckManager, Tracker);

impl Both {
    fn new() -> Self {
        Self(RemoteAckManager::new(), Tracker::new())
    }

    /// Registers on both sides; our last answer.
    fn register(&mut self, numbers: impl IntoIterator<Item = u32>) -> u32 {
        let both = |n| {
            self.0.register_pkt(n);
            self.1.register(n)
        };
        numbers.into_iter().map(both).last().unwrap_or(0)
    }

    fn rust(&mut self) -> Report {
        let info = self.0.ack_info();
        (info.highest_seen, info.num_acks, info.ranges.unwrap_or_default())
    }

    fn ours(&self) -> Result<Report, u32> {
        let (mut out, mut pairs) = ([0; 3], [0; 254]);
        match self.1.report(&mut out, &mut pairs) {
            0 => Ok((out[0] as u32, out[1] as u8, pairs[..out[2] as usize].chunks(2).map(|p| (p[0], p[1])).collect())),
            number => Err(number),
        }
    }
}

fn missing() -> Seen {
    let mut both = Both::new();
    both.register([5]);
    (both.0.is_duplicate(4), both.1.duplicate(4) == 0)
}

fn nothing() -> Seen {
    let mut both = Both::new();
    (both.rust() == (0, 0, vec![]), both.ours() == Err(41))
}

fn far() -> Seen {
    let mut both = Both::new();
    let number = both.register([256]);
    (both.rust() == (0, 0, vec![]), number == 40 && both.ours() == Err(41))
}

fn twice() -> Seen {
    let mut both = Both::new();
    both.register([255]);
    let rust = both.rust() == (255, 0, vec![(254, 1)]) && both.rust() == (255, 0, vec![(254, 0)]);
    let ours = Ok((255, 0, vec![(254, 0)]));
    (rust, both.ours() == ours && both.ours() == ours)
}

fn hole() -> Seen {
    let mut both = Both::new();
    both.register([200, 400]);
    both.rust();
    let number = both.register([100]);
    (both.rust() == (400, 0, vec![(199, 1), (54, 1)]), number == 42 && both.ours() == Ok((400, 0, vec![(199, 1), (54, 0)])))
}

fn long() -> Seen {
    let mut both = Both::new();
    both.register(1..=300);
    let rust = both.rust() == (300, 255, vec![]) && both.rust() == (300, 254, vec![]);
    let ours = Ok((300, 254, vec![]));
    (rust, both.ours() == ours && both.ours() == ours)
}

fn clamped() -> Seen {
    let mut both = Both::new();
    both.register((1..=300).chain([302]));
    (both.rust() == (302, 0, vec![(1, 255)]), both.ours() == Ok((302, 0, vec![(1, 253)])))
}
