//! Fair slots: the readings 12.1 to 12.6, 12.9 and 12.10 of document 02 through this crate, and a neighbour that floods.

mod common;

use common::{first_from, next_from, Lent, HEADS, NOW, SHARE};
use strawhub::{Block, Delivered, FragmentHandler, Message, Refusal, MESSAGE, NEIGHBOURS, RECORD, ROOM};

/// Neighbour numbers that are too high; some would be 0 to 3 if they were cut to fewer bits.
const TOO_HIGH: [u64; 8] = [4, 255, 256, 65_536, 1 << 32, (1 << 32) + 3, 1 << 63, u64::MAX];

/// `id:0` and `id:1!` of a neighbour are kept and finish.
fn finish(lent: &mut Lent, n: u64, id: u32) {
    lent.keeps(first_from(n, id, b"a"));
    assert_eq!(lent.finishes(next_from(n, id, 1, true, b"b"), 2), b"ab");
}

/// Whether only neighbour n's shares of record and room differ from what they were.
fn others_stay(before: &Lent, after: &Lent, n: u64) -> bool {
    let shares = |old: &[u8], new: &[u8]| {
        let size = old.len() / NEIGHBOURS as usize;
        old.chunks(size).zip(new.chunks(size)).enumerate().all(|(i, (a, b))| i as u64 == n || a == b)
    };
    shares(&before.record, &after.record) && shares(&before.room, &after.room)
}

/// 12.1: 59 is given when a handler is made, so 58 comes first here, before 50 and 51.
#[test]
fn the_order_is_59_58_50_51() {
    let (mut record, mut room, mut assembly) = (vec![0; RECORD], vec![0; ROOM - 1], vec![0; MESSAGE]);
    assert_eq!(FragmentHandler::resume(&mut record, &mut room, &mut assembly).err(), Some(Refusal::LentShort));
    let mut lent = Lent::new();
    assert_eq!(lent.refuses(first_from(4, 7, b"")), 58);
    assert_eq!(lent.refuses(next_from(4, 7, 0, true, b"")), 58);
    assert_eq!(lent.refuses(next_from(4, 7, 128, true, b"a")), 58);
    assert_eq!(lent.refuses(first_from(3, 7, b"")), 50);
    assert_eq!(lent.refuses(next_from(3, 7, 0, true, b"a")), 51);
}

/// 12.2: ids hold within a neighbour, remembered ones too.
#[test]
fn equal_ids_are_two_messages() {
    let mut lent = Lent::new();
    finish(&mut lent, 0, 7);
    finish(&mut lent, 1, 7);
    assert_eq!([0, 1].map(|n| lent.refuses(first_from(n, 7, b"a"))), [57, 57]);
    lent.keeps(first_from(2, 7, b"a"));
}

/// 12.3: 16 remembered ids for each neighbour, 64 in all; a 17th pushes out that neighbour's first alone.
#[test]
fn each_neighbour_has_16_remembered() {
    let mut lent = Lent::new();
    (0..4).for_each(|n| (0..16).for_each(|id| finish(&mut lent, n, id)));
    assert!((0..4).all(|n| (0..16).all(|id| lent.refuses(first_from(n, id, b"a")) == 57)));
    finish(&mut lent, 0, 16);
    assert_eq!([1, 16].map(|id| lent.refuses(first_from(0, id, b"a"))), [57, 57]);
    lent.keeps(first_from(0, 0, b"a"));
    assert!((1..4).all(|n| lent.refuses(first_from(n, 0, b"a")) == 57));
}

/// 12.4: one sweep for all.
#[test]
fn a_sweep_serves_all_neighbours() {
    let mut lent = Lent::new();
    let mut handler = lent.handler();
    assert_eq!(handler.first_fragment_from(0, 20, 1, 9, 0, b"a"), Ok(None));
    assert_eq!(handler.first_fragment_from(3, 20, 1, 9, 10, b"a"), Ok(None));
    handler.sweep(30);
    assert_eq!(lent.summary(), [0, 0, 0, 1]);
    lent.handler().sweep(40);
    assert_eq!(lent.summary(), [0; 4]);
    assert!(lent.is_empty());

    // so it is with what is remembered
    (0..4).for_each(|n| finish(&mut lent, n, 7));
    lent.handler().sweep(NOW + 29);
    assert!((0..4).all(|n| lent.refuses(first_from(n, 7, b"a")) == 57));
    lent.handler().sweep(NOW + 30);
    (0..4).for_each(|n| lent.keeps(first_from(n, 7, b"a")));
}

/// 12.5: above 3 in any width, and nothing changes.
#[test]
fn a_neighbour_above_3_is_refused_in_all_its_bits() {
    let mut lent = Lent::new();
    (0..4).for_each(|n| finish(&mut lent, n, 1));
    (0..4).for_each(|n| lent.keeps(first_from(n, 7, b"a")));
    let mut payload = [0; 64];
    let length = Block::FirstFragment { message_type: 20, message_id: 8, expiration: 9, fragment: b"ab" }
        .write(&mut payload)
        .unwrap();
    for n in TOO_HIGH {
        for id in [1, 7, 8] {
            assert_eq!(lent.refuses(first_from(n, id, b"a")), 58, "neighbour {n}");
            assert_eq!(lent.refuses(next_from(n, id, 1, true, b"b")), 58, "neighbour {n}");
        }
        let before = lent.clone();
        let refused = lent.handler().deliver_from(n, &payload[..length], 0, NOW).unwrap_err();
        assert_eq!((refused.number(), refused.place), (58, 0));
        assert!(lent == before);
    }
}

/// 12.6: 52 means that this neighbour has 4 open, and 57 comes before it.
#[test]
fn a_full_neighbour_hinders_nobody_else() {
    let mut lent = Lent::new();
    finish(&mut lent, 0, 9);
    (0..4).for_each(|id| lent.keeps(first_from(0, id, b"a")));
    assert_eq!(lent.refuses(first_from(0, 9, b"a")), 57);
    assert_eq!(lent.refuses(first_from(0, 8, b"a")), 52);
    lent.keeps(first_from(1, 8, b"a"));
    assert_eq!(lent.refuses(first_from(0, 8, b"a")), 52);
    assert_eq!(lent.finishes(next_from(0, 0, 1, true, b"b"), 2), b"ab");
    lent.keeps(first_from(0, 8, b"a"));
    assert_eq!(lent.refuses(first_from(0, 5, b"a")), 52);
}

/// 12.9: the room keeps its size, and its last byte is that of neighbour 3's fourth message.
#[test]
fn the_room_is_1_048_560_bytes() {
    assert_eq!((RECORD, ROOM), (9_352, 1_048_560));
    let mut lent = Lent::new();
    (0..3).for_each(|id| lent.keeps(first_from(3, id, b"a")));
    (1..44).for_each(|number| lent.keeps(next_from(3, 3, number, false, &[1; 1_500])));
    let before = lent.clone();
    lent.keeps(first_from(3, 3, &[1; 1_035]));
    assert_eq!((before.room[ROOM - 1], lent.room[ROOM - 1]), (0xa5, 1));
    assert!(others_stay(&before, &lent, 3));
}

/// 12.10: the pieces of two neighbours come between each other; at the end none is open, and 7 is remembered for both.
#[test]
fn messages_of_two_neighbours_come_out_apart() {
    let mut lent = Lent::new();
    lent.keeps(first_from(0, 7, b"a"));
    lent.keeps(first_from(1, 7, b"A"));
    assert_eq!(lent.summary(), [1, 1, 0, 0]);
    assert_eq!(lent.finishes(next_from(0, 7, 1, true, b"b"), 2), b"ab");
    assert_eq!(lent.finishes(next_from(1, 7, 1, true, b"B"), 2), b"AB");
    assert_eq!(lent.summary(), [0; 4]);
    assert!(lent.is_empty());
    assert!(lent.record.chunks(SHARE).all(|share| share[..HEADS].iter().all(|&byte| byte == 0)));
    assert_eq!([0, 1].map(|n| lent.refuses(next_from(n, 7, 1, true, b"b"))), [57, 57]);
    lent.keeps(first_from(2, 7, b"a"));
}

#[test]
fn a_flood_leaves_the_others_their_four() {
    let mut lent = Lent::new();
    for id in 0..40 {
        match id {
            0..=3 => lent.keeps(first_from(2, id, b"a")),
            _ => assert_eq!(lent.refuses(first_from(2, id, b"a")), 52),
        }
    }
    for n in [0, 1, 3] {
        for id in 0..4 {
            let before = lent.clone();
            lent.keeps(first_from(n, id, b"a"));
            assert_eq!(lent.refuses(first_from(2, 100, b"a")), 52);
            assert!(others_stay(&before, &lent, n));
        }
        assert_eq!(lent.refuses(first_from(n, 4, b"a")), 52);
    }
    assert_eq!(lent.summary(), [4; 4]);
    for n in [0, 1, 3] {
        (0..4).for_each(|id| assert_eq!(lent.finishes(next_from(n, id, 1, true, b"b"), 2), b"ab"));
    }
    assert_eq!(lent.summary(), [0, 0, 4, 0]);
}

/// A call without a neighbour is neighbour 0's.
#[test]
fn the_plain_calls_mean_neighbour_0() {
    let (mut plain, mut named) = (Lent::new(), Lent::new());
    plain.keeps(common::first(7, b"a"));
    named.keeps(first_from(0, 7, b"a"));
    assert!(plain == named);
    plain.keeps(common::next(7, 2, true, b"c"));
    named.keeps(next_from(0, 7, 2, true, b"c"));
    assert!(plain == named);
    let mut payload = [0; 64];
    let piece = Block::FollowOnFragment { last: false, message_id: 7, fragment_num: 1, fragment: b"b" };
    let length = piece.write(&mut payload).unwrap();
    let letter = Message { message_type: 20, message_id: 7, expiration: 9, payload: b"abc" };
    assert_eq!(plain.handler().deliver(&payload[..length], 0, NOW), Ok(Delivered::Rebuilt(letter)));
    assert_eq!(named.handler().deliver_from(0, &payload[..length], 0, NOW), Ok(Delivered::Rebuilt(letter)));
    assert!(plain == named);
}

/// A block's own refusal comes first, and what is no piece passes no store.
#[test]
fn only_a_piece_asks_for_its_neighbour() {
    let mut payload = [0; 64];
    let message = Message { message_type: 11, message_id: 7, expiration: 9, payload: b"letter" };
    let length = Block::I2Np { message }.write(&mut payload).unwrap();
    let mut lent = Lent::new();
    let before = lent.clone();
    for n in TOO_HIGH {
        assert_eq!(lent.handler().deliver_from(n, &payload[..length], 0, NOW), Ok(Delivered::Whole(message)));
        assert_eq!(lent.handler().deliver_from(n, &[254, 0, 0], 0, NOW), Ok(Delivered::Nothing));
        let cut = lent.handler().deliver_from(n, &[5, 0, 6, 3, 0, 0, 0, 1], 0, NOW).unwrap_err();
        assert_eq!(cut.number(), 7);
    }
    assert!(lent == before);
}
