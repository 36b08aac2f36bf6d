use super::{Row, Seen};
use crate::headers::{mask, ours, rust, Answer};
use oracle::{
    error::Ssu2Error,
    ffi,
    inputs::Live,
    message::{HeaderKind, HeaderReader},
    random::Random,
};

pub const ROWS: &[Row] = &[
    ("a packet of 24 to 39 bytes", short),
    ("a packet of 0 to 23 bytes", shorter),
    ("a refused packet", refused),
    ("a packet that was read, handed in again", twice),
];

fn packet(len: usize, kind: u8) -> Live {
    let mut live = Live { key1: [1; 32], key2: [2; 32], packet: (0..len as u8).collect() };
    live.packet[12] = kind;
    mask(&mut live);
    live
}

/// Of each length, random packets until the Rust reads one.
fn short() -> Seen {
    let mut random = Random::new(1);
    let mut seen = (true, true);
    for len in 24..40 {
        let mut made = || Live { key1: random.array(), key2: random.array(), packet: random.bytes(len) };
        let read = (0..100_000).map(|_| made()).find(|l| matches!(rust(l), Answer::Read { .. }));
        seen.0 &= read.is_some();
        seen.1 &= read.is_some_and(|l| ours(&l) == Answer::Refused(20));
    }
    seen
}

fn shorter() -> Seen {
    let both = (0..24).map(|len| {
        let live = Live { key1: [1; 32], key2: [2; 32], packet: vec![9; len] };
        let refused = HeaderReader::new(live.key1, &mut live.packet.clone()).err() == Some(Ssu2Error::NotEnoughBytes);
        (refused, ours(&live) == Answer::Refused(20))
    });
    both.fold((true, true), |(a, b), (c, d)| (a && c, b && d))
}

fn refused() -> Seen {
    let live = packet(80, 3);
    let (mut theirs, mut mine, mut fields) = (live.packet.clone(), live.packet.clone(), [7; 11]);
    let mut reader = HeaderReader::new(live.key1, &mut theirs).expect("80 bytes");
    reader.dst_id();
    let error = reader.parse(live.key2).err();
    let plain: Vec<u8> = (0..16).map(|i| if i == 12 { 3 } else { i }).collect();
    let number = ffi::header_read(&mut mine, &live.key1, &live.key2, &mut fields);
    let unmasked = theirs[..16] == plain && theirs[16..] == live.packet[16..];
    (error == Some(Ssu2Error::Malformed) && unmasked, number == 21 && mine == live.packet && fields == [7; 11])
}

fn twice() -> Seen {
    let live = packet(80, 6);
    let (mut theirs, mut mine, mut fields) = (live.packet.clone(), live.packet.clone(), [0; 11]);
    let mut reader = HeaderReader::new(live.key1, &mut theirs).expect("80 bytes");
    reader.dst_id();
    let first = matches!(reader.parse(live.key2), Ok(HeaderKind::Data { .. }));
    reader.dst_id();
    let again = reader.parse(live.key2).is_err() && theirs == live.packet;
    let read = ffi::header_read(&mut mine, &live.key1, &live.key2, &mut fields);
    let plain = mine.clone();
    let reread = ffi::header_read(&mut mine, &live.key1, &live.key2, &mut fields);
    (first && again, read == 0 && reread == 21 && mine == plain && plain != live.packet)
}
