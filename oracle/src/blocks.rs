//! Blocks read: the Rust's Block::parse beside strawhub_block_read and strawhub_block_list, over the types it is an oracle of.
use crate::tally::Tally;
use oracle::{
    error::parser::Ssu2ParseError,
    ffi::{self, Entry},
    inputs::{hex, payloads},
    message::Block,
    random::Random,
    runtime::Rt,
};
use std::net::IpAddr;

/// Named types but for RouterInfo and I2NP, whose parsers are not at hand.
const TYPES: [u8; 15] = [0, 1, 4, 5, 6, 12, 13, 15, 16, 17, 18, 19, 20, 21, 254];

/// A block as both sides can say it: type, fields in 01's order, the bytes after them.
#[derive(Debug, PartialEq, Clone)]
pub struct Shape {
    pub kind: u8,
    pub fields: [u64; 8],
    pub bytes: Vec<u8>,
}

pub fn shape(kind: u8, fields: &[u64], bytes: &[u8]) -> Shape {
    let mut all = [0; 8];
    all[..fields.len()].copy_from_slice(fields);
    Shape { kind, fields: all, bytes: bytes.to_vec() }
}

/// None for the blocks that are outside the domain.
pub fn shape_of(block: &Block) -> Option<Shape> {
    Some(match block {
        Block::DateTime { timestamp } => shape(0, &[*timestamp as u64], &[]),
        Block::Options { t_min, t_max, r_min, r_max, t_dmy, r_dmy, t_delay, r_delay } => {
            let (bytes, words) = ([t_min, t_max, r_min, r_max], [t_dmy, r_dmy, t_delay, r_delay]);
            let all: Vec<u64> = bytes.map(|b| *b as u64).into_iter().chain(words.map(|w| *w as u64)).collect();
            shape(1, &all, &[])
        }
        Block::FirstFragment { message_type, message_id, expiration, fragment } => {
            shape(4, &[message_type.0 as u64, **message_id as u64, *expiration as u64], fragment)
        }
        Block::FollowOnFragment { last, message_id, fragment_num, fragment } => {
            shape(5, &[*fragment_num as u64, *last as u64, **message_id as u64], fragment)
        }
        Block::Termination { num_valid_pkts, reason } => shape(6, &[*num_valid_pkts, *reason as u64], &[]),
        Block::Ack { ack_through, num_acks, ranges } => {
            let pairs: Vec<u8> = ranges.iter().flat_map(|(nack, ack)| [*nack, *ack]).collect();
            shape(12, &[*ack_through as u64, *num_acks as u64], &pairs)
        }
        Block::Address { address } => match address.ip() {
            IpAddr::V4(ip) => shape(13, &[address.port() as u64], &ip.octets()),
            IpAddr::V6(ip) => shape(13, &[address.port() as u64], &ip.octets()),
        },
        Block::RelayTagRequest => shape(15, &[], &[]),
        Block::RelayTag { relay_tag } => shape(16, &[*relay_tag as u64], &[]),
        Block::NewToken { expires, token } => shape(17, &[*expires as u64, *token], &[]),
        Block::PathChallenge { challenge } => shape(18, &[], challenge),
        Block::PathResponse { response } => shape(19, &[], response),
        Block::FirstPacketNumber { first_pkt_num } => shape(20, &[*first_pkt_num as u64], &[]),
        Block::Congestion { flag } => shape(21, &[*flag as u64], &[]),
        Block::Padding { padding } => shape(254, &[], padding),
        _ => return None,
    })
}

/// Document 01's number; 99 for an error that no block of the domain gives.
pub fn refusal(error: &Ssu2ParseError) -> u64 {
    match error {
        Ssu2ParseError::Nom(_) => 1,
        Ssu2ParseError::InvalidMessageTypeFirstFrag(_) => 3,
        Ssu2ParseError::EmptyFirstFragment => 4,
        Ssu2ParseError::FirstFragmentTooShort => 5,
        Ssu2ParseError::EmptyFollowOnFragment => 6,
        Ssu2ParseError::FollowOnFragmentTooShort => 7,
        Ssu2ParseError::InvalidAddressBlock(_) => 8,
        _ => 99,
    }
}

/// 0 and the count, or the refusal and its place; the blocks that were read.
#[derive(Debug, PartialEq)]
struct Answer {
    number: u64,
    value: u64,
    blocks: Vec<Option<Shape>>,
}

/// Our blocks one by one, each with its place and size; and where reading ended, with the refusal or 0.
struct Walk {
    blocks: Vec<(Entry, Shape)>,
    number: u64,
    end: usize,
}

fn walk(payload: &[u8]) -> Walk {
    let (mut w, mut out) = (Walk { blocks: Vec::new(), number: 0, end: 0 }, [0; 12]);
    loop {
        let outcome = ffi::block_read(payload, w.end, &mut out);
        w.number = outcome.number;
        if outcome.number != 0 {
            return w;
        }
        let entry = Entry { place: w.end, kind: out[0] as u8, size: out[1] as u16 };
        let bytes = &payload[out[2] as usize..(out[2] + out[3]) as usize];
        w.blocks.push((entry, shape(out[0] as u8, &out[4..], bytes)));
        w.end = outcome.value as usize;
        if w.end == payload.len() {
            return w;
        }
    }
}

/// Our listing, with the blocks of the walk where its entries and its answer say the same.
fn ours(payload: &[u8], w: &Walk) -> Answer {
    let mut list = vec![Entry::default(); payload.len() / 3 + 1];
    let outcome = ffi::block_list(payload, &mut list);
    let agree = match outcome.number {
        0 => list.iter().zip(&w.blocks).all(|(a, (b, _))| a == b) && outcome.value as usize == w.blocks.len(),
        _ => outcome.value as usize == w.end,
    };
    let blocks = match agree && outcome.number == w.number {
        true => w.blocks.iter().map(|(_, s)| Some(s.clone())).collect(),
        false => vec![None],
    };
    Answer { number: outcome.number, value: outcome.value, blocks }
}

/// The Rust's answer. Its errors carry no place: a place is right if the bytes before it parse and those from it on do not.
fn rust(payload: &[u8], end: usize) -> Answer {
    let shapes = |blocks: &[Block]| blocks.iter().map(shape_of).collect::<Vec<_>>();
    let error = match Block::parse::<Rt>(payload) {
        Ok(blocks) => return Answer { number: 0, value: blocks.len() as u64, blocks: shapes(&blocks) },
        Err(error) => error,
    };
    let before = if end == 0 { Ok(Vec::new()) } else { Block::parse::<Rt>(&payload[..end]) };
    let after = Block::parse::<Rt>(&payload[end..]).err();
    match before {
        Ok(blocks) if after.as_ref() == Some(&error) => {
            Answer { number: refusal(&error), value: end as u64, blocks: shapes(&blocks) }
        }
        _ => Answer { number: refusal(&error), value: u64::MAX, blocks: Vec::new() },
    }
}

/// Compares a payload, up to the first block of a type that is outside the domain.
fn one(tally: &mut Tally, payload: &[u8]) {
    let w = walk(payload);
    let types = w.blocks.iter().map(|(e, _)| *e).map(|e| (e.place, e.kind));
    let refused = (w.number != 0 && w.end < payload.len()).then(|| (w.end, payload[w.end]));
    match types.chain(refused).find(|(_, kind)| !TYPES.contains(kind)) {
        Some((place, _)) => {
            tally.outside += 1;
            if place > 0 {
                one(tally, &payload[..place]);
            }
        }
        None => {
            let rust = rust(payload, w.end);
            tally.compare(rust.number, &rust, &ours(payload, &w), || hex(payload));
        }
    }
}

fn listed(random: &mut Random) -> u8 {
    if random.once_in(8) {
        random.next() as u8
    } else {
        random.pick(&[1, 2, 3, 10, 11, 18, 22, 26])
    }
}

/// A block that is right, or nearly: the size says more or less than stands there.
fn block(random: &mut Random) -> Vec<u8> {
    let kind = random.pick(&TYPES);
    let more = if random.once_in(10) { random.below(900) } else { random.below(24) };
    let len = match kind {
        0 | 16 | 20 => 4,
        1 | 17 => 12,
        4 => 10 + more,
        5 => 6 + more,
        6 => 9,
        12 => 5 + more / 2 * 2,
        13 => random.pick(&[6, 18]),
        15 => 0,
        21 => 1,
        _ => more,
    };
    let size = match random.below(12) {
        0 => random.pick(&[0, 1, 2, 4, 5, 6, 7, 8, 9, 10, 11, 12, 13, 17, 18, 19, 255, 256, 65_535]),
        1 => len + 1,
        2 => len.saturating_sub(1),
        3 => random.below(40),
        _ => len,
    };
    sized(random, kind, size, len)
}

fn sized(random: &mut Random, kind: u8, size: usize, len: usize) -> Vec<u8> {
    let mut bytes = vec![kind, (size >> 8) as u8, size as u8];
    bytes.extend(random.bytes(len));
    if kind == 4 && len > 0 {
        bytes[3] = listed(random);
    }
    bytes
}

/// Blocks of live payloads that are in the domain.
fn live_blocks(all: &[Vec<u8>]) -> Vec<Vec<u8>> {
    let mut out = Vec::new();
    for payload in all {
        let w = walk(payload);
        let ends = w.blocks.iter().skip(1).map(|(e, _)| e.place).chain([w.end]);
        let parts = w.blocks.iter().zip(ends).filter(|((e, _), _)| TYPES.contains(&e.kind));
        out.extend(parts.map(|((e, _), end)| payload[e.place..end].to_vec()));
    }
    out
}

/// A mixture of made and live blocks, or a whole live payload; often damaged.
fn payload(random: &mut Random, live: &[Vec<u8>], parts: &[Vec<u8>]) -> Vec<u8> {
    let mut bytes = Vec::new();
    if random.once_in(16) {
        bytes.clone_from(&live[random.below(live.len())]);
    } else {
        for _ in 0..random.range(1, 6) {
            let part = if random.once_in(4) { parts[random.below(parts.len())].clone() } else { block(random) };
            bytes.extend(part);
        }
    }
    if random.once_in(4) {
        bytes.truncate(random.below(bytes.len() + 1));
    }
    if random.once_in(4) && !bytes.is_empty() {
        let at = random.below(bytes.len());
        bytes[at] = if random.once_in(2) { random.next() as u8 } else { bytes[at] ^ 1 << random.below(8) };
    }
    bytes
}

/// All payloads of up to 3 bytes, and every type with every size and body up to 40 bytes.
fn short(tally: &mut Tally, random: &mut Random, step: usize) {
    one(tally, &[]);
    for kind in TYPES {
        one(tally, &[kind]);
        (0..=255).for_each(|b| one(tally, &[kind, b]));
        (0..=65_535u16).step_by(step).for_each(|s| one(tally, &[&[kind][..], &s.to_be_bytes()].concat()));
        for (size, len) in (0..=40).flat_map(|s| (0..=40).map(move |l| (s, l))).step_by(step) {
            one(tally, &sized(random, kind, size, len));
        }
    }
}

/// Every type with sizes and bodies around the largest.
fn long(tally: &mut Tally, random: &mut Random) {
    for kind in TYPES {
        for (size, len) in [(65_535, 65_535), (65_535, 65_534), (65_534, 65_535), (65_533, 65_533), (65_534, 65_534)] {
            one(tally, &sized(random, kind, size, len));
        }
    }
}

pub fn compare(seed: u64, count: u64) -> (u64, u64) {
    let (mut tally, mut random) = (Tally::new("blocks read", count), Random::new(seed));
    let live = payloads();
    let parts = live_blocks(&live);
    live.iter().for_each(|p| one(&mut tally, p));
    long(&mut tally, &mut random);
    short(&mut tally, &mut random, (1_000_000 / count.max(1)).max(1) as usize);
    // a million more beside those
    tally.also(count);
    while tally.wants() {
        one(&mut tally, &payload(&mut random, &live, &parts));
    }
    tally.close(&[0, 1, 3, 4, 5, 6, 7, 8])
}
