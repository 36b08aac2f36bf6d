//! The fixed lists of the check programs, through this crate: live packets and payloads, the original Rust's
//! acknowledgements, the models' answers.

mod common;

use common::Lent;
use std::collections::BTreeMap;
use std::fmt::Write;
use strawhub::{
    blocks, expand, list_blocks, Block, Entry, FragmentHandler, HeaderKind, HeaderReader, Ranges, Refusal,
    RemoteAckManager,
};

fn bytes_of(hex: &str) -> Vec<u8> {
    (0..hex.len()).step_by(2).map(|i| u8::from_str_radix(&hex[i..i + 2], 16).unwrap()).collect()
}

fn number(word: &str) -> u64 {
    word.parse().unwrap()
}

/// What a list's line says of a header: type, destination, number, byte 13, network, source, token, key; - where a type
/// has none.
fn header_line(header: &HeaderKind) -> String {
    use HeaderKind::*;
    let hex = |key: [u8; 32]| key.iter().fold(String::new(), |text, byte| text + &format!("{byte:02x}"));
    let start = format!("{} {} {}", *header.message_type(), header.dst_id(), header.pkt_num());
    match *header {
        SessionConfirmed { fragment, num_fragments, .. } => {
            format!("{start} {} - - - -", fragment * 16 + num_fragments)
        }
        Data { immediate_ack, .. } => format!("{start} {} - - - -", immediate_ack as u8),
        SessionRequest { version, net_id, src_id, token, ephemeral_key, .. }
        | SessionCreated { version, net_id, src_id, token, ephemeral_key, .. } => {
            format!("{start} {} {net_id} {src_id} {token} {}", version as u8, hex(ephemeral_key))
        }
        PeerTest { version, net_id, src_id, token, .. }
        | Retry { version, net_id, src_id, token, .. }
        | TokenRequest { version, net_id, src_id, token, .. }
        | HolePunch { version, net_id, src_id, token, .. } => {
            format!("{start} {} {net_id} {src_id} {token} -", version as u8)
        }
    }
}

#[test]
fn live_packets_are_read_and_written_again() {
    let mut packets = 0;
    for line in include_str!("../../crates/header_check/stdin").lines() {
        let words: Vec<&str> = line.split(' ').collect();
        let [k1, k2]: [[u8; 32]; 2] = [0, 1].map(|i| bytes_of(words[i]).try_into().unwrap());
        let came = bytes_of(words[2]);
        let mut pkt = came.clone();
        let mut reader = HeaderReader::new(k1, &mut pkt).unwrap();
        assert_eq!(reader.dst_id().to_string(), words[4]);
        let header = reader.parse(k2).unwrap();
        assert_eq!(header_line(&header), words[3..11].join(" "));
        assert_eq!(pkt[..words[11].len() / 2], bytes_of(words[11]));
        header.write(k1, k2, &mut pkt).unwrap();
        assert_eq!(pkt, came);
        packets += 1;
    }
    assert_eq!(packets, 724);
}

/// Whether a block that was read, written again, gives the bytes that it was read from: 1 and 0, or 0 and 1 where its
/// size is not what the writer puts.
fn written_again(block: Block<'_>, stood: &[u8]) -> (usize, usize) {
    let mut room = vec![0; 70_000];
    let length = block.write(&mut room).unwrap();
    if room[1..3] != stood[1..3] {
        return (0, 1);
    }
    assert_eq!(room[..length], *stood, "{block:?}");
    (1, 0)
}

#[test]
fn live_payloads_are_listed_and_written_again() {
    let (mut types, mut refusals) = (BTreeMap::new(), BTreeMap::new());
    let (mut again, mut otherwise, mut payloads) = (0, 0, 0);
    for line in include_str!("../../crates/blocks_check/stdin").lines() {
        let (payload, room) = line.split_once(' ').unwrap();
        let (payload, mut list) = (bytes_of(payload), vec![Entry::default(); number(room) as usize]);
        payloads += 1;
        let count = match list_blocks(&payload, &mut list) {
            Ok(count) => count,
            Err(refused) => {
                let (n, places) = refusals.entry(refused.number()).or_insert((0, 0));
                (*n, *places) = (*n + 1, *places + refused.place);
                continue;
            }
        };
        let ends = list[1..count].iter().map(|entry| entry.place).chain([payload.len()]);
        for ((entry, block), end) in list[..count].iter().zip(blocks(&payload)).zip(ends) {
            let (place, block) = block.unwrap();
            assert_eq!((entry.place, entry.kind), (place, block.kind()));
            let (n, sizes) = types.entry(entry.kind).or_insert((0, 0));
            (*n, *sizes) = (*n + 1, *sizes + usize::from(entry.size));
            let (same, other) = written_again(block, &payload[place..end]);
            (again, otherwise) = (again + same, otherwise + other);
        }
        assert_eq!(blocks(&payload).count(), count);
    }
    let mut said = String::new();
    types.iter().for_each(|(kind, (n, sizes))| writeln!(said, "type {kind}: {n}, sizes {sizes}").unwrap());
    refusals.iter().for_each(|(r, (n, places))| writeln!(said, "refused {r}: {n}, places {places}").unwrap());
    writeln!(said, "written again: {again}, with another size: {otherwise}\n{payloads} payloads").unwrap();
    assert_eq!(said, include_str!("../../crates/blocks_check/stdout"));
}

/// The numbers that an acknowledgement names.
fn named(through: u32, count: u8, pairs: &[u8]) -> Vec<u32> {
    let mut list = [0; 512];
    let n = expand(through, count, Ranges::new(pairs), &mut list).unwrap();
    list[..n].to_vec()
}

/// 0, or the refusal's number.
fn answer<T>(result: Result<T, Refusal>) -> u64 {
    result.err().map_or(0, |refusal| refusal.number().into())
}

/// The report of a tracker that an `ask` line has: pairs, number, through, count.
fn asked(acks: &RemoteAckManager, words: &[&str]) {
    assert_eq!(answer(acks.ack_info()), number(words[2]));
    let Ok(info) = acks.ack_info() else { return };
    assert_eq!(info.ranges().as_bytes(), bytes_of(words[1]));
    assert_eq!([u64::from(info.highest_seen), u64::from(info.num_acks)], [3, 4].map(|i| number(words[i])));

    // as a block, and back
    let mut room = [0; 262];
    let length = acks.write_ack(&mut room).unwrap();
    assert_eq!(Block::read(&room[..length], 0), Ok((info.block(), length)));
}

/// The Rust's report at the same place, expanded and cut to the window.
fn like_the_rust(acks: &RemoteAckManager, words: &[&str]) {
    let info = acks.ack_info().unwrap();
    let mut theirs = named(number(words[2]) as u32, number(words[3]) as u8, &bytes_of(words[1]));
    theirs.retain(|&n| u64::from(n) + 255 > info.highest_seen.into());
    assert_eq!(named(info.highest_seen, info.num_acks, info.ranges().as_bytes()), theirs);
}

/// An expansion: pairs, the list afterwards, which was all 7, through, count, number, how many.
fn expanded(words: &[&str]) {
    let after: Vec<u32> = bytes_of(words[2]).chunks(4).map(|n| u32::from_be_bytes(n.try_into().unwrap())).collect();
    let mut list = vec![7; after.len()];
    let pairs = bytes_of(words[1]);
    let result = expand(number(words[3]) as u32, number(words[4]) as u8, Ranges::new(&pairs), &mut list);
    assert_eq!((answer(result), result.unwrap_or(0) as u64), (number(words[5]), number(words[6])));
    assert_eq!(list, after);
}

#[test]
fn acknowledgements_are_the_models_and_the_rusts() {
    let mut tracker = None; // none after a line that forges one, which this crate cannot
    let mut replayed = BTreeMap::new();
    for line in include_str!("../../crates/acks_check/stdin").lines() {
        let words: Vec<&str> = line.split(' ').collect();
        match (words[0], &mut tracker) {
            ("new", _) => tracker = Some(RemoteAckManager::new()),
            ("start", _) => tracker = None,
            ("register", Some(acks)) => {
                assert_eq!(answer(acks.register_pkt(number(words[1]) as u32)), number(words[2]), "{line}")
            }
            ("duplicate", Some(acks)) => {
                assert_eq!(acks.is_duplicate(number(words[1]) as u32), words[2] == "1", "{line}")
            }
            ("ask", Some(acks)) => asked(acks, &words),
            ("oracle", Some(acks)) => like_the_rust(acks, &words),
            ("expand", _) => expanded(&words),
            (word, _) => {
                assert!(["#", "register", "duplicate", "ask"].contains(&word), "{line}");
                continue;
            }
        }
        *replayed.entry(words[0]).or_insert(0) += 1;
    }
    assert_eq!(["register", "ask", "oracle", "expand"].map(|word| replayed[word]), [453, 75, 70, 25]);
}

/// Byte j of a piece with a seed.
fn piece(seed: u64, length: u64) -> Vec<u8> {
    (0..length).map(|j| (seed * 7 + j * 13 + j / 256) as u8).collect()
}

/// The list's sum over a message's bytes.
fn sum(message: &[u8]) -> u64 {
    message.iter().fold(0, |sum, &byte| (sum * 31 + u64::from(byte) + 1) % 65_521)
}

#[test]
fn pieces_are_answered_as_the_model_does() {
    let mut lent = Lent::new();
    let mut calls = 0;
    for line in include_str!("../../crates/reassembly_check/stdin").lines() {
        let words: Vec<u64> = line.split(' ').map(number).collect();
        let [what, neighbour, id, a, b, second, seed, length, room] = words[..9] else { panic!("{line}") };
        let bytes = piece(seed, length);
        let assembly = &mut lent.assembly[..room as usize];
        let mut handler = FragmentHandler::resume(&mut lent.record, &mut lent.room, assembly).unwrap();
        let answer = match what {
            0 => {
                lent = Lent::new();
                Ok(None)
            }
            1 => handler.first_fragment_from(neighbour, a as u8, id as u32, b as u32, second, &bytes),
            2 => handler.follow_on_fragment_from(neighbour, id as u32, a as u8, b != 0, second, &bytes),
            _ => {
                handler.sweep(second);
                Ok(None)
            }
        };
        let said = match answer {
            Ok(None) => [0; 5],
            Ok(Some(m)) => [60, m.message_type.into(), m.expiration.into(), m.payload.len() as u64, sum(m.payload)],
            Err(refusal) => [refusal.number().into(), 0, 0, 0, 0],
        };
        assert_eq!(said, words[9..], "{line}");
        calls += 1;
    }
    assert_eq!(calls, 3_294);
}
