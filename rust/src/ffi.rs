//! The calls as include/strawhub.h declares them, and a safe function over each. `strawhub_tracker_new` and
//! `strawhub_sender_new` are not among them: 259 zeros are a new tracker, 4,104 a new sender.
//!
//! This is the only module with unsafe code. Each function hands the library slices, as a pointer and a
//! count, and arrays of the declared length, as a pointer. They are borrowed for the call, mutably where
//! the library may write; the library reads and writes inside them alone, keeps no pointer and always
//! returns.

/// One block of a listing.
#[derive(Debug, Clone, Copy, PartialEq, Eq, Hash, Default)]
#[repr(C)]
pub struct Entry {
    /// The place of its type byte.
    pub place: usize,

    /// Its type.
    pub kind: u8,

    /// Its size field as it stands.
    pub size: u16,
}

/// 0 and a length, a count, a place or a packet number; or a refusal and its place.
#[derive(Debug, Clone, Copy, PartialEq, Eq)]
#[repr(C)]
pub struct Outcome {
    pub number: u64,
    pub value: u64,
}

/// 0 and how many numbers an expansion wrote; or a refusal.
#[derive(Debug, Clone, Copy, PartialEq, Eq)]
#[repr(C)]
pub struct Expanded {
    pub number: u32,
    pub count: usize,
}

/// What came of a piece.
#[derive(Debug, Clone, Copy, PartialEq, Eq)]
#[repr(C)]
pub struct Reply {
    pub number: u8,
    pub kind: u8,
    pub expires: u32,
    pub length: usize,
}

/// A header's fields as the library takes them; those that a type does not have are 0.
#[derive(Debug, Clone, Copy, Default)]
pub struct Fields {
    pub kind: u8,
    pub destination: u64,
    pub number: u32,
    pub version: u8,
    pub network: u8,
    pub source: u64,
    pub token: u64,
    pub fragment: u8,
    pub count: u8,
    pub immediate: bool,
}

/// A store's bytes: its record, its room and the assembly buffer.
pub struct Store<'a> {
    pub record: &'a mut [u8],
    pub room: &'a mut [u8],
    pub out: &'a mut [u8],
}

mod c {
    use super::{Entry, Expanded, Outcome, Reply};

    extern "C" {
        pub fn strawhub_keystream(key: *const u8, counter: u32, nonce: *const u8, out: *mut u8);

        pub fn strawhub_header_read(
            packet: *mut u8,
            packet_len: usize,
            key1: *const u8,
            key2: *const u8,
            out: *mut u64,
        ) -> u32;

        pub fn strawhub_header_write(
            packet: *mut u8,
            packet_len: usize,
            key1: *const u8,
            key2: *const u8,
            kind: u8,
            destination: u64,
            number: u32,
            version: u8,
            network: u8,
            source: u64,
            token: u64,
            fragment: u8,
            count: u8,
            immediate: u8,
        ) -> u32;

        pub fn strawhub_block_read(payload: *const u8, payload_len: usize, at: usize, out: *mut u64) -> Outcome;

        pub fn strawhub_block_write(
            room: *mut u8,
            room_len: usize,
            kind: u8,
            fields: *const u64,
            bytes: *const u8,
            bytes_len: usize,
        ) -> Outcome;

        pub fn strawhub_block_list(
            payload: *const u8,
            payload_len: usize,
            list: *mut Entry,
            list_len: usize,
        ) -> Outcome;

        pub fn strawhub_tracker_register(tracker: *mut u8, tracker_len: usize, number: u32) -> u32;

        pub fn strawhub_tracker_duplicate(tracker: *const u8, tracker_len: usize, number: u32) -> u32;

        pub fn strawhub_tracker_report(tracker: *const u8, tracker_len: usize, out: *mut u64, pairs: *mut u8) -> u32;

        pub fn strawhub_tracker_ack_block(
            tracker: *const u8,
            tracker_len: usize,
            room: *mut u8,
            room_len: usize,
        ) -> Outcome;

        pub fn strawhub_ack_expand(
            through: u32,
            count: u8,
            pairs: *const u8,
            pairs_len: usize,
            list: *mut u32,
            list_len: usize,
        ) -> Expanded;

        pub fn strawhub_sender_send(sender: *mut u8, sender_len: usize, second: u64) -> Outcome;

        pub fn strawhub_sender_resend(sender: *mut u8, sender_len: usize, number: u32, second: u64) -> Outcome;

        pub fn strawhub_sender_ack(
            sender: *mut u8,
            sender_len: usize,
            through: u32,
            count: u8,
            pairs: *const u8,
            pairs_len: usize,
            settled: *mut u32,
        ) -> Outcome;

        pub fn strawhub_sender_outstanding(sender: *const u8, sender_len: usize, k: usize, out: *mut u64) -> Outcome;

        pub fn strawhub_store_new(record: *mut u8, record_len: usize) -> u8;

        pub fn strawhub_store_first(
            record: *mut u8,
            record_len: usize,
            room: *mut u8,
            room_len: usize,
            out: *mut u8,
            out_len: usize,
            neighbour: u64,
            id: u32,
            kind: u8,
            expires: u32,
            second: u64,
            bytes: *const u8,
            bytes_len: usize,
        ) -> Reply;

        pub fn strawhub_store_follow_on(
            record: *mut u8,
            record_len: usize,
            room: *mut u8,
            room_len: usize,
            out: *mut u8,
            out_len: usize,
            neighbour: u64,
            id: u32,
            number: u8,
            last: u8,
            second: u64,
            bytes: *const u8,
            bytes_len: usize,
        ) -> Reply;

        pub fn strawhub_store_sweep(record: *mut u8, record_len: usize, second: u64) -> u8;

        pub fn strawhub_block_deliver(
            payload: *const u8,
            payload_len: usize,
            at: usize,
            record: *mut u8,
            record_len: usize,
            room: *mut u8,
            room_len: usize,
            out: *mut u8,
            out_len: usize,
            neighbour: u64,
            second: u64,
            told: *mut u64,
        ) -> Outcome;
    }
}

pub fn keystream(key: &[u8; 32], counter: u32, nonce: &[u8; 12]) -> [u8; 64] {
    let mut out = [0; 64];
    // SAFETY: three arrays of the declared lengths.
    unsafe { c::strawhub_keystream(key.as_ptr(), counter, nonce.as_ptr(), out.as_mut_ptr()) };
    out
}

pub fn header_read(packet: &mut [u8], key1: &[u8; 32], key2: &[u8; 32], out: &mut [u64; 11]) -> u32 {
    // SAFETY: a slice with its own length, arrays of the declared lengths.
    unsafe {
        c::strawhub_header_read(packet.as_mut_ptr(), packet.len(), key1.as_ptr(), key2.as_ptr(), out.as_mut_ptr())
    }
}

pub fn header_write(packet: &mut [u8], key1: &[u8; 32], key2: &[u8; 32], f: &Fields) -> u32 {
    // SAFETY: a slice with its own length, arrays of the declared lengths.
    unsafe {
        c::strawhub_header_write(
            packet.as_mut_ptr(),
            packet.len(),
            key1.as_ptr(),
            key2.as_ptr(),
            f.kind,
            f.destination,
            f.number,
            f.version,
            f.network,
            f.source,
            f.token,
            f.fragment,
            f.count,
            f.immediate as u8,
        )
    }
}

pub fn block_read(payload: &[u8], at: usize, out: &mut [u64; 12]) -> Outcome {
    // SAFETY: a slice with its own length, an array of the declared length.
    unsafe { c::strawhub_block_read(payload.as_ptr(), payload.len(), at, out.as_mut_ptr()) }
}

pub fn block_write(room: &mut [u8], kind: u8, fields: &[u64; 8], bytes: &[u8]) -> Outcome {
    // SAFETY: slices with their own lengths, an array of the declared length.
    unsafe {
        c::strawhub_block_write(room.as_mut_ptr(), room.len(), kind, fields.as_ptr(), bytes.as_ptr(), bytes.len())
    }
}

pub fn block_list(payload: &[u8], list: &mut [Entry]) -> Outcome {
    // SAFETY: slices with their own lengths; Entry is laid out as the header has it.
    unsafe { c::strawhub_block_list(payload.as_ptr(), payload.len(), list.as_mut_ptr(), list.len()) }
}

pub fn tracker_register(tracker: &mut [u8], number: u32) -> u32 {
    // SAFETY: a slice with its own length.
    unsafe { c::strawhub_tracker_register(tracker.as_mut_ptr(), tracker.len(), number) }
}

pub fn tracker_duplicate(tracker: &[u8], number: u32) -> u32 {
    // SAFETY: a slice with its own length.
    unsafe { c::strawhub_tracker_duplicate(tracker.as_ptr(), tracker.len(), number) }
}

pub fn tracker_report(tracker: &[u8], out: &mut [u64; 3], pairs: &mut [u8; 254]) -> u32 {
    // SAFETY: a slice with its own length, arrays of the declared lengths.
    unsafe { c::strawhub_tracker_report(tracker.as_ptr(), tracker.len(), out.as_mut_ptr(), pairs.as_mut_ptr()) }
}

pub fn tracker_ack_block(tracker: &[u8], room: &mut [u8]) -> Outcome {
    // SAFETY: slices with their own lengths.
    unsafe { c::strawhub_tracker_ack_block(tracker.as_ptr(), tracker.len(), room.as_mut_ptr(), room.len()) }
}

pub fn ack_expand(through: u32, count: u8, pairs: &[u8], list: &mut [u32]) -> Expanded {
    // SAFETY: slices with their own lengths.
    unsafe { c::strawhub_ack_expand(through, count, pairs.as_ptr(), pairs.len(), list.as_mut_ptr(), list.len()) }
}

pub fn sender_send(sender: &mut [u8], second: u64) -> Outcome {
    // SAFETY: a slice with its own length.
    unsafe { c::strawhub_sender_send(sender.as_mut_ptr(), sender.len(), second) }
}

pub fn sender_resend(sender: &mut [u8], number: u32, second: u64) -> Outcome {
    // SAFETY: a slice with its own length.
    unsafe { c::strawhub_sender_resend(sender.as_mut_ptr(), sender.len(), number, second) }
}

pub fn sender_ack(sender: &mut [u8], through: u32, count: u8, pairs: &[u8], settled: &mut [u32; 256]) -> Outcome {
    // SAFETY: slices with their own lengths, an array of the declared length; the mutable ones are apart.
    unsafe {
        c::strawhub_sender_ack(
            sender.as_mut_ptr(),
            sender.len(),
            through,
            count,
            pairs.as_ptr(),
            pairs.len(),
            settled.as_mut_ptr(),
        )
    }
}

pub fn sender_outstanding(sender: &[u8], k: usize, out: &mut [u64; 3]) -> Outcome {
    // SAFETY: a slice with its own length, an array of the declared length.
    unsafe { c::strawhub_sender_outstanding(sender.as_ptr(), sender.len(), k, out.as_mut_ptr()) }
}

pub fn store_new(record: &mut [u8]) -> u8 {
    // SAFETY: a slice with its own length.
    unsafe { c::strawhub_store_new(record.as_mut_ptr(), record.len()) }
}

pub fn store_first(
    store: Store<'_>,
    neighbour: u64,
    id: u32,
    kind: u8,
    expires: u32,
    second: u64,
    bytes: &[u8],
) -> Reply {
    // SAFETY: slices with their own lengths; borrowed mutably, they do not overlap.
    unsafe {
        c::strawhub_store_first(
            store.record.as_mut_ptr(),
            store.record.len(),
            store.room.as_mut_ptr(),
            store.room.len(),
            store.out.as_mut_ptr(),
            store.out.len(),
            neighbour,
            id,
            kind,
            expires,
            second,
            bytes.as_ptr(),
            bytes.len(),
        )
    }
}

pub fn store_follow_on(
    store: Store<'_>,
    neighbour: u64,
    id: u32,
    number: u8,
    last: bool,
    second: u64,
    bytes: &[u8],
) -> Reply {
    // SAFETY: slices with their own lengths; borrowed mutably, they do not overlap.
    unsafe {
        c::strawhub_store_follow_on(
            store.record.as_mut_ptr(),
            store.record.len(),
            store.room.as_mut_ptr(),
            store.room.len(),
            store.out.as_mut_ptr(),
            store.out.len(),
            neighbour,
            id,
            number,
            last as u8,
            second,
            bytes.as_ptr(),
            bytes.len(),
        )
    }
}

pub fn store_sweep(record: &mut [u8], second: u64) -> u8 {
    // SAFETY: a slice with its own length.
    unsafe { c::strawhub_store_sweep(record.as_mut_ptr(), record.len(), second) }
}

pub fn block_deliver(
    payload: &[u8],
    at: usize,
    store: Store<'_>,
    neighbour: u64,
    second: u64,
    told: &mut [u64; 6],
) -> Outcome {
    // SAFETY: slices with their own lengths, the mutable ones apart; an array of the declared length.
    unsafe {
        c::strawhub_block_deliver(
            payload.as_ptr(),
            payload.len(),
            at,
            store.record.as_mut_ptr(),
            store.record.len(),
            store.room.as_mut_ptr(),
            store.room.len(),
            store.out.as_mut_ptr(),
            store.out.len(),
            neighbour,
            second,
            told.as_mut_ptr(),
        )
    }
}
