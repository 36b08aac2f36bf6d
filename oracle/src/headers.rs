//! Header reading: the Rust's HeaderReader beside strawhub_header_read, on packets of at least 40 bytes.
use crate::tally::Tally;
use oracle::{
    crypto::chachapoly::ChaCha,
    error::Ssu2Error,
    ffi::{self, Fields},
    inputs::{hex, packets, Live},
    message::{HeaderKind, HeaderReader, ProtocolVersion},
    random::Random,
};

const TYPES: [u8; 8] = [0, 1, 2, 6, 7, 9, 10, 11];

/// What a side says of a packet; after a refusal only the refusal counts.
#[derive(Debug, PartialEq)]
pub enum Answer {
    Refused(u32),
    Read { fields: [u64; 11], key: Vec<u8>, packet: Vec<u8> },
}

pub fn ours(live: &Live) -> Answer {
    let (mut packet, mut fields) = (live.packet.clone(), [0; 11]);
    match ffi::header_read(&mut packet, &live.key1, &live.key2, &mut fields) {
        0 => {
            let at = fields[10] as usize;
            let key = if at == 0 { Vec::new() } else { packet[at..at + 32].to_vec() };
            Answer::Read { fields, key, packet }
        }
        number => Answer::Refused(number),
    }
}

pub fn rust(live: &Live) -> Answer {
    let mut packet = live.packet.clone();
    let read = HeaderReader::new(live.key1, &mut packet).and_then(|mut reader| {
        let destination = reader.dst_id();
        reader.parse(live.key2).map(|kind| (destination, kind))
    });
    match read {
        Ok((destination, kind)) => {
            let (fields, key) = fields(kind, destination, &packet);
            Answer::Read { fields, key, packet }
        }
        Err(error) => Answer::Refused(refusal(&error, &packet)),
    }
}

/// Document 01's number; the unmasked type byte tells the two malformed ones apart.
fn refusal(error: &Ssu2Error, packet: &[u8]) -> u32 {
    match error {
        Ssu2Error::NotEnoughBytes if packet.len() < 40 => 20,
        Ssu2Error::NotEnoughBytes => 23,
        Ssu2Error::InvalidVersion => 22,
        Ssu2Error::Malformed if packet[12] == 2 => 24,
        Ssu2Error::Malformed => 21,
    }
}

fn version(version: ProtocolVersion) -> u64 {
    match version {
        ProtocolVersion::V2 => 2,
        ProtocolVersion::V3 => 3,
        ProtocolVersion::V4 => 4,
    }
}

/// Fields in the order of strawhub_header_read, and the key. A kind lacks some of them: those come from the bytes it unmasked.
fn fields(kind: HeaderKind, destination: u64, packet: &[u8]) -> ([u64; 11], Vec<u8>) {
    let word = |at: usize| u64::from_le_bytes(packet[at..at + 8].try_into().expect("8 bytes"));
    let long = |kind: u64, version: u64, net_id: u8, pkt_num: u32, source: u64, token: u64, key: u64| {
        [kind, version, net_id as u64, 0, 0, 0, pkt_num as u64, destination, source, token, key]
    };
    match kind {
        HeaderKind::SessionRequest { ephemeral_key, net_id, pkt_num, token, version: v } => {
            (long(0, version(v), net_id, pkt_num, word(16), token, 32), ephemeral_key.0.to_vec())
        }
        HeaderKind::SessionCreated { ephemeral_key, net_id, pkt_num, version: v } => {
            (long(1, version(v), net_id, pkt_num, word(16), word(24), 32), ephemeral_key.0.to_vec())
        }
        HeaderKind::SessionConfirmed { fragment, num_fragments, pkt_num } => {
            ([2, 0, 0, fragment as u64, num_fragments as u64, 0, pkt_num as u64, destination, 0, 0, 0], Vec::new())
        }
        HeaderKind::Data { immediate_ack, pkt_num } => {
            ([6, 0, 0, 0, 0, immediate_ack as u64, pkt_num as u64, destination, 0, 0, 0], Vec::new())
        }
        HeaderKind::PeerTest { net_id, pkt_num, src_id, version: v } => {
            (long(7, version(v), net_id, pkt_num, src_id, word(24), 0), Vec::new())
        }
        HeaderKind::Retry { net_id, pkt_num, token, version: v } => {
            (long(9, version(v), net_id, pkt_num, word(16), token, 0), Vec::new())
        }
        HeaderKind::TokenRequest { net_id, pkt_num, src_id, version: v } => {
            (long(10, version(v), net_id, pkt_num, src_id, word(24), 0), Vec::new())
        }
        HeaderKind::HolePunch { net_id, pkt_num, src_id, version: v } => {
            (long(11, version(v), net_id, pkt_num, src_id, word(24), 0), Vec::new())
        }
    }
}

/// Masks the first 16 bytes of a packet in place, so that a reader meets them as they stand now.
pub fn mask(live: &mut Live) {
    let packet = &mut live.packet;
    let n = packet.len();
    for (key, nonce, at) in [(live.key1, n - 24, 0), (live.key2, n - 12, 8)] {
        let nonce = packet[nonce..nonce + 12].try_into().expect("12 bytes");
        ChaCha::with_iv(key, nonce).decrypt_ref(&mut packet[at..at + 8]);
    }
}

/// A packet of random bytes with a plain number, type and byte 13 of our choice.
fn made(random: &mut Random, len: usize, number: u32, kind: u8, byte13: u8) -> Live {
    let mut live = Live { key1: random.array(), key2: random.array(), packet: random.bytes(len) };
    live.packet[8..12].copy_from_slice(&number.to_be_bytes());
    (live.packet[12], live.packet[13]) = (kind, byte13);
    mask(&mut live);
    live
}

fn length(random: &mut Random) -> usize {
    match random.below(8) {
        0..=3 => random.range(40, 95),
        4 => random.pick(&[40, 55, 56, 63, 64, 65, 87, 88]),
        5 => random.range(1400, 1500),
        _ => random.range(40, 1500),
    }
}

fn likely(random: &mut Random) -> Live {
    let number = if random.once_in(2) { 0 } else { random.next() as u32 };
    let kind = if random.once_in(16) { random.next() as u8 } else { random.pick(&TYPES) };
    let byte13 = if random.once_in(4) { random.next() as u8 } else { random.range(2, 4) as u8 };
    let len = length(random);
    made(random, len, number, kind, byte13)
}

/// A live packet with a few bytes changed, cut or made longer.
fn damaged(random: &mut Random, all: &[Live]) -> Live {
    let from = &all[random.below(all.len())];
    let mut packet = from.packet.clone();
    match random.below(4) {
        0 => packet.truncate(random.range(40, packet.len().max(40))),
        1 => packet.extend(random.array::<7>()),
        _ => (),
    }
    for _ in 0..random.below(3) {
        let at = if random.once_in(2) { random.below(16) } else { random.below(packet.len()) };
        packet[at] ^= 1 << random.below(8);
    }
    packet.resize(packet.len().max(40), 0);
    Live { key1: from.key1, key2: from.key2, packet }
}

fn random(random: &mut Random, all: &[Live]) -> Live {
    match random.below(8) {
        0 => {
            let len = length(random);
            Live { key1: random.array(), key2: random.array(), packet: random.bytes(len) }
        }
        1 | 2 => damaged(random, all),
        _ => likely(random),
    }
}

fn one(tally: &mut Tally, live: &Live) {
    let input = || format!("key1 {} key2 {} packet {}", hex(&live.key1), hex(&live.key2), hex(&live.packet));
    let rust = rust(live);
    let number = if let Answer::Refused(number) = rust { number as u64 } else { 0 };
    tally.compare(number, &rust, &ours(live), input);
}

pub fn compare(seed: u64, count: u64) -> (u64, u64) {
    let (mut tally, mut rng, all) = (Tally::new("headers", count), Random::new(seed), packets());
    all.iter().filter(|l| l.packet.len() >= 40).for_each(|l| one(&mut tally, l));
    // every type with every byte 13, around the lengths that are tested; a short round takes every n-th
    let step = (1_000_000 / count.max(1)).max(1) as usize;
    for i in (0..256 * 256 * 8).step_by(step).take_while(|_| count > 0) {
        let (kind, byte13, number) = (i as u8, (i >> 8) as u8, (i >> 16) as u32 & 1);
        let len = [40, 63, 64, 65][i >> 17];
        one(&mut tally, &made(&mut rng, len, number, kind, byte13));
    }
    while tally.wants() {
        one(&mut tally, &random(&mut rng, &all));
    }
    tally.close(&[0, 21, 22, 23, 24])
}

/// Fields within a type's places, at random.
fn written(random: &mut Random) -> Fields {
    let kind = random.pick(&TYPES);
    let (long, confirmed, data) = (!matches!(kind, 2 | 6), kind == 2, kind == 6);
    let when = |yes: bool, value: u64| if yes { value } else { 0 };
    Fields {
        kind,
        destination: random.next(),
        number: when(!confirmed, random.next()) as u32,
        version: when(long, random.range(2, 4) as u64) as u8,
        network: when(long, random.next() & 255) as u8,
        source: when(long, random.next()),
        token: when(long, random.next()),
        fragment: when(confirmed, random.next() & 15) as u8,
        count: when(confirmed, random.next() & 15) as u8,
        immediate: when(data, random.next() & 1) != 0,
    }
}

/// Headers that we write, read by the Rust: it has no writer of its own here.
pub fn compare_written(seed: u64, count: u64) -> (u64, u64) {
    let (mut tally, mut random) = (Tally::new("headers written", count), Random::new(seed));
    while tally.wants() {
        let f = written(&mut random);
        let least = match f.kind {
            2 | 6 => 40,
            0 | 1 => 88,
            _ => 56,
        };
        let len = least + if random.once_in(2) { random.below(4) } else { random.below(1_400) };
        let (key1, key2, mut packet) = (random.array(), random.array(), random.bytes(len));
        let plain = packet.clone();
        let number = ffi::header_write(&mut packet, &key1, &key2, &f);
        let read = match rust(&Live { key1, key2, packet: packet.clone() }) {
            Answer::Read { fields, key, .. } => (0, fields, key),
            Answer::Refused(number) => (number, [0; 11], Vec::new()),
        };
        let at = if matches!(f.kind, 0 | 1) { 32 } else { 0 };
        let given = [f.kind, f.version, f.network, f.fragment, f.count, f.immediate as u8].map(|b| b as u64);
        let rest = [f.number as u64, f.destination, f.source, f.token, at as u64];
        let put = (number, std::array::from_fn(|i| if i < 6 { given[i] } else { rest[i - 6] }), plain[at..2 * at].to_vec());
        tally.compare(0, &read, &put, || format!("{f:?} key1 {} key2 {} packet {}", hex(&key1), hex(&key2), hex(&plain)));
    }
    tally.close(&[0])
}
