//! Every refusal is given by some call, and leaves every lent byte as it was.

mod common;

use common::{first, first_from, headers, next, next_from, packet, packet_as, Lent, HEADS, K1, K2, NOW, SHARE};
use std::collections::BTreeSet;
use strawhub::{
    blocks, expand, list_blocks, Block, Entry, FragmentHandler, FragmentStorage, HeaderKind, HeaderReader, Message,
    Ranges, Refusal, RemoteAckManager, Sender, MESSAGE, MOST_OUTSTANDING, RECORD, ROOM, STORAGE,
};

/// A payload that is refused, by the reader, the walk, the listing and the store alike.
fn reads(payload: &[u8], at: usize) -> u8 {
    let refused = Block::read(payload, at).unwrap_err();
    assert_eq!(refused.place, at);
    if at == 0 {
        let mut list = [Entry { place: 9, kind: 9, size: 9 }; 4];
        assert_eq!(list_blocks(payload, &mut list), Err(refused));
        assert_eq!(list, [Entry { place: 9, kind: 9, size: 9 }; 4]);
        assert_eq!(blocks(payload).next(), Some(Err(refused)));
    }
    let mut lent = Lent::new();
    let before = lent.clone();
    assert_eq!(lent.handler().deliver(payload, at, NOW), Err(refused));
    assert!(lent == before);
    refused.number()
}

fn of_blocks() -> Vec<u8> {
    let mut list = [Entry { place: 9, kind: 9, size: 9 }; 2];
    let full = list_blocks(&[254, 0, 0, 254, 0, 0, 254, 0, 0], &mut list).unwrap_err();
    assert_eq!((full.place, list), (6, [Entry { place: 9, kind: 9, size: 9 }; 2]));
    vec![
        reads(&[], 0),
        reads(&[0, 0, 4], 3),
        reads(&[0, 0, 4, 0, 0, 7], 0),
        reads(&[2, 0, 2, 1, 1], 0),
        reads(&[3, 0, 9, 4, 0, 0, 0, 1, 0, 0, 0, 2], 0),
        reads(&[4, 0, 9, 11, 0, 0, 0, 1, 0, 0, 0, 2], 0),
        reads(&[4, 0, 10, 11, 0, 0, 0, 1, 0, 0, 0, 2], 0),
        reads(&[5, 0, 5, 3, 0, 0, 0, 1], 0),
        reads(&[5, 0, 6, 3, 0, 0, 0, 1], 0),
        reads(&[13, 0, 7, 0x1f, 0x90], 0),
        reads(&[3, 0, 8], 0),
        full.number(),
    ]
}

/// A packet that is refused.
fn parses(mut pkt: Vec<u8>) -> u8 {
    let came = pkt.clone();
    let refusal = HeaderReader::new(K1, &mut pkt).and_then(|mut reader| reader.parse(K2)).unwrap_err();
    assert_eq!(pkt, came);
    refusal.number()
}

/// A header that is refused for a packet of so many bytes.
fn masks(header: HeaderKind, length: usize) -> u8 {
    let mut pkt = vec![9; length];
    let refusal = header.write(K1, K2, &mut pkt).unwrap_err();
    assert_eq!(pkt, vec![9; length]);
    refusal.number()
}

fn of_headers() -> Vec<u8> {
    let mut numbered = packet(headers()[2], 40);
    numbered[11] ^= 1; // the lowest byte of its number, which was 0
    let mut found = vec![
        parses(vec![0; 39]),
        parses(packet_as(8, 0, 64)),
        parses(packet_as(9, 5, 64)),
        parses(packet_as(0, 2, 63)),
        parses(numbered),
        masks(HeaderKind::SessionConfirmed { dst_id: 1, pkt_num: 0, fragment: 16, num_fragments: 0 }, 40),
    ];
    found.extend(headers().map(|header| masks(header, 39)));
    found.push(masks(headers()[0], 87)); // the key is put back
    found
}

/// A block that is refused for a room.
fn writes(block: Block<'_>, room: usize) -> u8 {
    let mut room = vec![9; room];
    let refusal = block.write(&mut room).unwrap_err();
    assert!(room.iter().all(|&byte| byte == 9));
    refusal.number()
}

fn of_writing() -> Vec<u8> {
    let message = |message_type| Message { message_type, message_id: 1, expiration: 2, payload: b"m" };
    let piece = |fragment_num, fragment| Block::FollowOnFragment { last: true, message_id: 1, fragment_num, fragment };
    let start = |message_type, fragment| Block::FirstFragment { message_type, message_id: 1, expiration: 2, fragment };
    let faulty = [
        Block::RouterInfo { flag: 0, frag: 1, serialized: b"" },
        Block::I2Np { message: message(4) },
        start(20, b""),
        start(12, b"m"),
        piece(1, b""),
        piece(128, b"m"),
        Block::Ack { ack_through: 5, num_acks: 0, ranges: Ranges::new(&[1, 2, 3]) },
    ];
    for block in faulty {
        assert_eq!(writes(block, 70_000), 32, "{block:?}");
    }
    for kind in (0..=255).filter(|&kind| Block::Opaque { kind, bytes: b"" }.write(&mut [0; 3]).is_err()) {
        assert_eq!(writes(Block::Opaque { kind, bytes: b"" }, 3), 32);
        assert!(
            !matches!(Block::read(&[kind; 70_000], 0), Ok((Block::Opaque { .. }, _))),
            "{kind} is opaque when read"
        );
    }
    vec![
        writes(faulty[0], 0),
        writes(Block::PathChallenge { challenge: &[0; 65_536] }, 0),
        writes(Block::Termination { num_valid_pkts: 1, reason: 1 }, 11),
        writes(Block::Address { address: "[::1]:1".parse().unwrap() }, 20),
    ]
}

fn of_acks() -> Vec<u8> {
    let mut acks = RemoteAckManager::new();
    let registers = |acks: &mut RemoteAckManager, number| {
        let before = acks.clone();
        let refusal = acks.register_pkt(number).unwrap_err();
        assert!(*acks == before);
        refusal.number()
    };
    let mut found = vec![registers(&mut acks, 256), acks.ack_info().unwrap_err().number()];
    acks.register_pkt(200).unwrap();
    acks.register_pkt(400).unwrap();
    found.extend([registers(&mut acks, 400), registers(&mut acks, 145), registers(&mut acks, 656)]);

    let mut room = [9; 11];
    assert_eq!(acks.write_ack(&mut room), Err(Refusal::RoomShort));
    assert_eq!(room, [9; 11]);

    let mut list = [9; 3];
    found.push(expand(10, 11, Ranges::default(), &mut list).unwrap_err().number());
    found.push(expand(10, 2, Ranges::new(&[1, 1]), &mut list).unwrap_err().number());
    assert_eq!(list, [9; 3]);
    found
}

/// 71 stands beside the code, in src/sender.rs: no test has the time to use up the numbers.
fn of_senders() -> Vec<u8> {
    let mut sender = Sender::new();
    (0..MOST_OUTSTANDING).for_each(|_| assert!(sender.send(NOW).is_ok()));
    let before = sender.clone();
    let mut found = vec![sender.send(NOW).unwrap_err().number(), sender.resend(257, NOW).unwrap_err().number()];
    let mut list = [9; MOST_OUTSTANDING];
    for (through, count) in [(257, 0), (257, 255), (254, 255)] {
        found.push(sender.ack(through, count, Ranges::new(&[1, 1]), &mut list).unwrap_err().number());
    }
    assert!(sender == before && list == [9; MOST_OUTSTANDING]);
    assert_eq!(found, [70, 73, 72, 72, 44]);
    found
}

fn of_stores() -> Vec<u8> {
    let mut lent = Lent::new();
    let mut found = vec![lent.refuses(first(1, b"")), lent.refuses(next(1, 0, false, b"a"))];
    lent.keeps(first(1, b"a"));
    found.extend([lent.refuses(first(1, b"a")), lent.refuses(first(1, b"b"))]);
    (2..5).for_each(|id| lent.keeps(next(id, 1, true, b"z")));
    found.push(lent.refuses(first(5, b"a")));
    found.extend([lent.refuses(first_from(4, 5, b"a")), lent.refuses(next_from(4, 1, 1, true, b"a"))]);

    (1..44).for_each(|n| lent.keeps(next(1, n, false, &[1; 1_500])));
    found.push(lent.refuses(next(1, 44, false, &[1; 1_035])));

    let mut short = Lent { assembly: vec![7; 1], ..lent.clone() };
    found.push(short.refuses(first(2, b"a")));
    short.assembly.push(7);
    assert_eq!(short.finishes(first(2, b"a"), 2), b"az");
    found.push(short.refuses(next(2, 1, true, b"z")));
    found
}

fn of_short_bytes() -> Vec<u8> {
    let mut bytes = vec![9; STORAGE];
    assert_eq!(FragmentStorage::over(&mut bytes[1..]).err(), Some(Refusal::LentShort));
    assert!(bytes.iter().all(|&byte| byte == 9));
    assert!(FragmentStorage::over(bytes).unwrap().handler().first_fragment(20, 1, 2, NOW, b"a").is_ok());
    // a byte short, and the lengths that a record had before neighbours, and before finished messages were remembered
    [(RECORD - 1, ROOM), (9_345, ROOM), (8_576, ROOM), (RECORD, ROOM - 1)]
        .map(|(record, room)| {
            let (mut record, mut room, mut assembly) = (vec![9; record], vec![9; room], vec![9; MESSAGE]);
            let refusal = FragmentHandler::new(&mut record, &mut room, &mut assembly).err().unwrap();
            assert!([record, room, assembly].concat().iter().all(|&byte| byte == 9));
            refusal.number()
        })
        .into()
}

#[test]
fn a_record_that_names_bytes_outside_is_refused() {
    for n in 0..4 {
        let mut lent = Lent::new();
        let share = &mut lent.record[n as usize * SHARE..];
        share[3 * 24] = 1; // the id of the neighbour's slot 3
        share[3 * 24 + 18] = 1; // one number is held,
        share[HEADS + 3 * 512..][..4].copy_from_slice(&[0xff, 0xff, 1, 0]); // 0: a byte after the slot's 65,535
        assert_eq!(lent.refuses(next_from(n, 1, 1, true, b"y")), 59);
        assert_eq!(lent.refuses(first_from(n, 1, b"x")), 59);
        lent.keeps(next_from(n, 1, 1, false, b"y"));
    }
}

#[test]
fn a_remembered_id_is_refused_after_50_and_51_and_before_the_rest() {
    let mut lent = Lent::new();
    lent.keeps(first(7, b"a"));
    assert_eq!(lent.finishes(next(7, 1, true, b"b"), 2), b"ab");
    let asked = |lent: &mut Lent| {
        assert_eq!(lent.refuses(first(7, b"")), 50);
        assert_eq!(lent.refuses(next(7, 0, true, b"b")), 51);
        assert_eq!(lent.refuses(next(7, 1, true, b"b")), 57); // an exact repeat
        assert_eq!(lent.refuses(next(7, 1, true, b"c")), 57); // other bytes
        assert_eq!(lent.refuses(next(7, 9, false, b"c")), 57); // a number that the message did not have
        assert_eq!(lent.refuses(first(7, b"a")), 57);
    };
    asked(&mut lent);
    (100..104).for_each(|id| lent.keeps(first(id, b"a")));
    assert_eq!(lent.refuses(first(8, b"a")), 52);
    asked(&mut lent);
}

#[test]
fn a_17th_finished_message_pushes_out_the_first() {
    let mut lent = Lent::new();
    let finish = |lent: &mut Lent, id| {
        lent.keeps(first(id, b"a"));
        assert_eq!(lent.finishes(next(id, 1, true, b"b"), 2), b"ab");
    };
    (0..16).for_each(|id| finish(&mut lent, id));
    assert!((0..16).all(|id| lent.refuses(first(id, b"a")) == 57));
    finish(&mut lent, 16);
    assert!((1..17).all(|id| lent.refuses(first(id, b"a")) == 57));
    lent.keeps(first(0, b"a"));
}

#[test]
fn every_refusal_is_given_and_changes_nothing() {
    let found = [of_blocks(), of_headers(), of_writing(), of_acks(), of_senders(), of_stores(), of_short_bytes()];
    let found: BTreeSet<u8> = found.concat().into_iter().chain([Refusal::NumbersUsedUp.number()]).collect();
    let all: BTreeSet<u8> = Refusal::ALL.iter().map(|refusal| refusal.number()).collect();
    assert_eq!(found, all);
}

#[test]
fn a_refusal_has_its_number_and_a_sentence_of_its_own() {
    let sentences: BTreeSet<String> = Refusal::ALL.iter().map(Refusal::to_string).collect();
    assert_eq!(sentences.len(), Refusal::ALL.len());
    for &refusal in Refusal::ALL {
        assert_eq!(Refusal::from_number(refusal.number().into()), Some(refusal));
    }
    assert!([0, 11, 45, 60, 69, 74, 256 + 1].into_iter().all(|number| Refusal::from_number(number).is_none()));
}
