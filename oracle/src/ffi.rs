//! The proved library's C calls: the Rust crate's own declarations of them, and a tracker, a sender and a store that keep their bytes.

#[path = "../../rust/src/ffi.rs"]
mod calls;
pub use calls::{ack_expand, block_list, block_read, block_write, header_read, header_write, Entry, Expanded, Fields, Outcome, Reply};

pub const TRACKER: usize = 259;
pub const SENDER: usize = 4104;
pub const RECORD: usize = 9352;
pub const ROOM: usize = 1_048_560;
pub const MESSAGE: usize = 65_535;

// the Rust crate's tracker and sender begin as zeros and need no call
extern "C" {
    fn strawhub_tracker_new(tracker: *mut u8, len: usize) -> u32;
    fn strawhub_sender_new(sender: *mut u8, len: usize) -> u32;
}

/// A tracker in the bytes that a caller keeps.
pub struct Tracker(pub [u8; TRACKER]);

impl Tracker {
    pub fn new() -> Self {
        let mut bytes = [0xff; TRACKER];
        assert_eq!(unsafe { strawhub_tracker_new(bytes.as_mut_ptr(), TRACKER) }, 0);
        Self(bytes)
    }

    pub fn register(&mut self, number: u32) -> u32 {
        calls::tracker_register(&mut self.0, number)
    }

    pub fn duplicate(&self, number: u32) -> u32 {
        calls::tracker_duplicate(&self.0, number)
    }

    pub fn report(&self, out: &mut [u64; 3], pairs: &mut [u8; 254]) -> u32 {
        calls::tracker_report(&self.0, out, pairs)
    }

    pub fn ack_block(&self, room: &mut [u8]) -> Outcome {
        calls::tracker_ack_block(&self.0, room)
    }
}

/// A sender in the bytes that a caller keeps. The original has none: bench/sides times this one.
#[derive(Clone)]
pub struct Sender(pub [u8; SENDER]);

impl Sender {
    pub fn new() -> Self {
        let mut bytes = [0xff; SENDER];
        assert_eq!(unsafe { strawhub_sender_new(bytes.as_mut_ptr(), SENDER) }, 0);
        Self(bytes)
    }

    pub fn send(&mut self, second: u64) -> Outcome {
        calls::sender_send(&mut self.0, second)
    }

    pub fn resend(&mut self, number: u32, second: u64) -> Outcome {
        calls::sender_resend(&mut self.0, number, second)
    }

    pub fn ack(&mut self, through: u32, count: u8, pairs: &[u8], settled: &mut [u32; 256]) -> Outcome {
        calls::sender_ack(&mut self.0, through, count, pairs, settled)
    }

    /// The outstanding packets, the oldest first: number, second, resends.
    pub fn outstanding(&self) -> impl Iterator<Item = (u32, u64, u32)> + '_ {
        (0..calls::sender_outstanding(&self.0, 0, &mut [0; 3]).value as usize).map(|k| {
            let mut out = [0; 3];
            calls::sender_outstanding(&self.0, k, &mut out);
            (out[0] as u32, out[1], out[2] as u32)
        })
    }
}

/// A store with its room and an assembly buffer.
pub struct Store {
    pub record: Vec<u8>,
    pub room: Vec<u8>,
    pub out: Vec<u8>,
}

impl Store {
    pub fn new() -> Self {
        let mut store = Self { record: vec![0xff; RECORD], room: vec![0; ROOM], out: vec![0; MESSAGE] };
        store.renew();
        store
    }

    /// Empty again; the room keeps its bytes.
    pub fn renew(&mut self) {
        assert_eq!(calls::store_new(&mut self.record), 0);
    }

    fn lent(&mut self) -> calls::Store<'_> {
        calls::Store { record: &mut self.record, room: &mut self.room, out: &mut self.out }
    }

    pub fn first(&mut self, neighbour: u64, id: u32, kind: u8, expires: u32, second: u64, bytes: &[u8]) -> Reply {
        calls::store_first(self.lent(), neighbour, id, kind, expires, second, bytes)
    }

    pub fn follow_on(&mut self, neighbour: u64, id: u32, number: u8, last: bool, second: u64, bytes: &[u8]) -> Reply {
        calls::store_follow_on(self.lent(), neighbour, id, number, last, second, bytes)
    }

    pub fn sweep(&mut self, second: u64) -> u8 {
        calls::store_sweep(&mut self.record, second)
    }

    /// What the block at a place of a neighbour's payload delivers.
    pub fn deliver(&mut self, neighbour: u64, payload: &[u8], at: usize, second: u64, told: &mut [u64; 6]) -> Outcome {
        calls::block_deliver(payload, at, self.lent(), neighbour, second, told)
    }
}
