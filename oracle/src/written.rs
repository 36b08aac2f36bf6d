//! Blocks written: the Rust's Block::serialize beside strawhub_block_write; types that it cannot write, it reads.
use crate::{
    blocks::{shape, shape_of, Shape},
    tally::Tally,
};
use oracle::{ffi, inputs::hex, message::Block, random::Random, runtime::Rt};
use std::net::{IpAddr, Ipv4Addr, Ipv6Addr, SocketAddr};

const TYPES: [u8; 7] = [0, 6, 12, 13, 15, 16, 254];
const ONLY_READ: [u8; 8] = [1, 4, 5, 17, 18, 19, 20, 21];
const FILL: u8 = 0xa5;

/// The Rust's block for a shape.
fn block_of(s: &Shape) -> Block {
    let f = s.fields;
    match s.kind {
        0 => Block::DateTime { timestamp: f[0] as u32 },
        6 => Block::Termination { num_valid_pkts: f[0], reason: f[1] as u8 },
        12 => Block::Ack {
            ack_through: f[0] as u32,
            num_acks: f[1] as u8,
            ranges: s.bytes.chunks(2).map(|p| (p[0], p[1])).collect(),
        },
        13 => Block::Address { address: SocketAddr::new(ip(&s.bytes), f[0] as u16) },
        15 => Block::RelayTagRequest,
        16 => Block::RelayTag { relay_tag: f[0] as u32 },
        _ => Block::Padding { padding: s.bytes.clone() },
    }
}

fn ip(bytes: &[u8]) -> IpAddr {
    match <[u8; 4]>::try_from(bytes) {
        Ok(four) => IpAddr::V4(Ipv4Addr::from(four)),
        Err(_) => IpAddr::V6(Ipv6Addr::from(<[u8; 16]>::try_from(bytes).expect("4 or 16 bytes"))),
    }
}

/// Its length and a room that holds it, the rest as it was.
type Written = (u64, u64, Vec<u8>);

fn rust(s: &Shape, spare: usize) -> Written {
    let block = block_of(s);
    let len = block.serialized_len();
    let mut room = block.serialize().to_vec();
    room.resize(len + spare, FILL);
    (0, len as u64, room)
}

fn ours(s: &Shape, len: usize) -> Written {
    let mut room = vec![FILL; len];
    let outcome = ffi::block_write(&mut room, s.kind, &s.fields, &s.bytes);
    (outcome.number, outcome.value, room)
}

/// Bodies to 65,535 bytes, mostly short ones.
fn body(random: &mut Random, most: usize) -> usize {
    match random.below(200) {
        0 => most,
        1 => random.below(most + 1),
        2..=20 => random.below(2_000),
        _ => random.below(60),
    }
}

fn random_shape(random: &mut Random) -> Shape {
    let kind = random.pick(&TYPES);
    let word = random.next();
    match kind {
        0 | 16 => shape(kind, &[word as u32 as u64], &[]),
        6 => shape(6, &[word, random.next() & 255], &[]),
        12 => {
            let pairs = body(random, 65_530) / 2 * 2;
            shape(12, &[word as u32 as u64, random.next() & 255], &random.bytes(pairs))
        }
        13 => {
            let len = random.pick(&[4, 16]);
            shape(13, &[word & 65_535], &random.bytes(len))
        }
        15 => shape(15, &[], &[]),
        _ => {
            let len = body(random, 65_535);
            shape(254, &[], &random.bytes(len))
        }
    }
}

/// A block of a type that the Rust only reads.
fn shape_to_read(random: &mut Random) -> Shape {
    let kind = random.pick(&ONLY_READ);
    let words: [u64; 3] = [random.next(), random.next() & 0xffff_ffff, random.next() & 0xffff_ffff];
    let more = 1 + body(random, 65_520);
    match kind {
        1 => {
            let field = |i: usize| words[i % 2] >> (4 * i) & if i < 4 { 255 } else { 65_535 };
            shape(1, &std::array::from_fn::<u64, 8, _>(field), &[])
        }
        4 => shape(4, &[random.pick(&[1, 3, 10, 18, 26]), words[1], words[2]], &random.bytes(more)),
        5 => shape(5, &[words[0] & 127, words[0] >> 7 & 1, words[1]], &random.bytes(more)),
        17 => shape(17, &[words[1], words[0]], &[]),
        20 => shape(20, &[words[1]], &[]),
        21 => shape(21, &[words[1] & 255], &[]),
        _ => shape(kind, &[], &random.bytes(more - 1)),
    }
}

fn written(tally: &mut Tally, random: &mut Random) {
    let s = random_shape(random);
    let theirs = rust(&s, random.below(4));
    let mine = ours(&s, theirs.2.len());
    tally.compare(0, &theirs, &mine, || format!("type {} fields {:?} bytes {}", s.kind, s.fields, hex(&s.bytes)));
}

fn read_back(tally: &mut Tally, random: &mut Random) {
    let s = shape_to_read(random);
    let (number, length, room) = ours(&s, 65_538);
    let read = Block::parse::<Rt>(&room[..length as usize]).map(|blocks| blocks.iter().map(shape_of).collect::<Vec<_>>());
    tally.compare(0, &(0, read), &(number, Ok(vec![Some(s.clone())])), || format!("{s:?} written"));
}

pub fn compare(seed: u64, count: u64) -> (u64, u64) {
    let (mut tally, mut random) = (Tally::new("blocks written", count), Random::new(seed));
    while tally.wants() {
        written(&mut tally, &mut random);
        if random.once_in(4) {
            read_back(&mut tally, &mut random);
        }
    }
    tally.close(&[0])
}
