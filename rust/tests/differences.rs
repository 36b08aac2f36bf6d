//! A test for each row of docs/DIFFERENCES.md that the library can show: what it does on the input
//! where the original Rust does something else.

mod common;

use common::{first, headers, next, packet, packet_as, Lent, K1, K2, NOW};
use strawhub::{
    blocks, list_blocks, Block, Entry, HeaderKind, HeaderReader, Message, Ranges, Refusal, RemoteAckManager,
};

mod header {
    use super::*;

    #[test]
    fn short_packet() {
        for length in 0..40 {
            let mut pkt = vec![7; length];
            assert_eq!(HeaderReader::new(K1, &mut pkt).err(), Some(Refusal::PacketShort));
        }
        let mut pkt = packet(headers()[3], 40);
        assert!(HeaderReader::new(K1, &mut pkt).unwrap().parse(K2).is_ok());
    }

    #[test]
    fn refused_packet() {
        let mut pkt = packet_as(3, 0, 64);
        let came = pkt.clone();
        assert_eq!(HeaderReader::new(K1, &mut pkt).unwrap().parse(K2), Err(Refusal::Type));
        assert_eq!(pkt, came);
    }

    #[test]
    fn parsed_twice() {
        let header = headers()[0];
        let mut pkt = packet(header, 88);
        assert_eq!(HeaderReader::new(K1, &mut pkt).unwrap().parse(K2), Ok(header));
        let plain = pkt.clone();
        assert_eq!(plain[..8], header.dst_id().to_le_bytes());

        // the masks are not put on again: the plain header is read as a masked one, and refused
        assert!(HeaderReader::new(K1, &mut pkt).unwrap().parse(K2).is_err());
        assert_eq!(pkt, plain);
    }

    #[test]
    fn destination_always() {
        for header in headers() {
            let mut pkt = packet(header, 90);
            let mut reader = HeaderReader::new(K1, &mut pkt).unwrap();
            assert_eq!(reader.dst_id(), 0x0102030405060708);
            assert_eq!(reader.parse(K2).unwrap().dst_id(), 0x0102030405060708);
        }
    }

    #[test]
    fn all_fields() {
        for header in headers() {
            for length in [88, 89, 1_500] {
                let mut pkt = packet(header, length);
                assert_eq!(HeaderReader::new(K1, &mut pkt).unwrap().parse(K2), Ok(header));
            }
        }
    }

    #[test]
    fn header_written() {
        let shortest = [88, 88, 40, 40, 56, 56, 56, 56];
        for (header, shortest) in headers().into_iter().zip(shortest) {
            let mut pkt = vec![9; shortest - 1];
            assert_eq!(header.write(K1, K2, &mut pkt), Err(Refusal::PacketShort));
            assert!(pkt.iter().all(|&byte| byte == 9));
            packet(header, shortest);
        }
        let confirmed = |pkt_num, fragment, num_fragments| {
            let mut pkt = [9; 40];
            let header = HeaderKind::SessionConfirmed { dst_id: 1, pkt_num, fragment, num_fragments };
            let answer = header.write(K1, K2, &mut pkt);
            assert!(answer.is_ok() || pkt == [9; 40]);
            answer
        };
        assert_eq!(confirmed(1, 0, 1), Err(Refusal::ConfirmedNumber));
        assert_eq!(confirmed(0, 16, 1), Err(Refusal::Nibble));
        assert_eq!(confirmed(0, 0, 16), Err(Refusal::Nibble));
        assert_eq!(confirmed(0, 15, 15), Ok(()));
    }
}

mod block {
    use super::*;

    /// A block of a type that is not parsed is opaque, and the blocks after it are read.
    fn is_opaque(kind: u8) {
        let payload = [kind, 0, 2, 0xaa, 0xbb, 21, 0, 1, 5];
        let found: Vec<_> = blocks(&payload).map(|block| block.unwrap().1).collect();
        assert_eq!(found, [Block::Opaque { kind, bytes: &[0xaa, 0xbb] }, Block::Congestion { flag: 5 }]);
        let mut list = [Entry::default(); 2];
        assert_eq!(list_blocks(&payload, &mut list), Ok(2));
        assert_eq!(list[0], Entry { place: 0, kind, size: 2 });
    }

    #[test]
    fn unknown_types() {
        assert_eq!(Block::read(&[0x16, 0, 0], 0), Ok((Block::Opaque { kind: 22, bytes: &[] }, 3)));
        for kind in (22..=253).chain([14, 255]) {
            is_opaque(kind);
        }
    }

    #[test]
    fn relay_types() {
        (7..=10).for_each(is_opaque);
    }

    #[test]
    fn next_nonce() {
        is_opaque(11);
    }

    #[test]
    fn router_info() {
        let payload = [2, 0, 5, 2, 1, 0xde, 0xad, 0xbe];
        let block = Block::RouterInfo { flag: 2, frag: 1, serialized: &[0xde, 0xad, 0xbe] };
        assert_eq!(Block::read(&payload, 0), Ok((block, 8)));
    }

    #[test]
    fn empty_blocks() {
        let payload: Vec<u8> = [254, 0, 0].repeat(21_845);
        let mut list = vec![Entry::default(); 21_845];
        assert_eq!(list_blocks(&payload, &mut list), Ok(21_845));
        assert_eq!(list[21_844], Entry { place: 65_532, kind: 254, size: 0 });
        assert_eq!(blocks(&payload).filter(Result::is_ok).count(), 21_845);
    }

    #[test]
    fn place_given() {
        // Congestion, then a first fragment of an I2NP type that is not listed
        let payload = [21, 0, 1, 5, 4, 0, 10, 99, 0, 0, 0, 1, 0, 0, 0, 2, 7];
        let refused = blocks(&payload).last().unwrap().unwrap_err();
        assert_eq!((refused.number(), refused.place), (3, 4));
        assert_eq!(list_blocks(&payload, &mut [Entry::default(); 4]), Err(refused));
    }

    #[test]
    fn long_padding() {
        let mut room = vec![9; 70_000];
        let padding = |n| vec![1; n];
        assert_eq!(Block::Padding { padding: &padding(65_536) }.write(&mut room), Err(Refusal::BodyLong));
        assert!(room.iter().all(|&byte| byte == 9));
        assert_eq!(Block::Padding { padding: &padding(65_535) }.write(&mut room), Ok(65_538));
        assert_eq!(room[..3], [254, 255, 255]);
    }

    #[test]
    fn all_types_written() {
        let message = Message { message_type: 26, message_id: 1, expiration: 2, payload: b"letter" };
        let all = [
            Block::DateTime { timestamp: 7 },
            Block::Options {
                t_min: 1,
                t_max: 2,
                r_min: 3,
                r_max: 4,
                t_dmy: 500,
                r_dmy: 600,
                t_delay: 700,
                r_delay: 800,
            },
            Block::RouterInfo { flag: 1, frag: 2, serialized: b"info" },
            Block::I2Np { message },
            Block::FirstFragment { message_type: 20, message_id: 3, expiration: 4, fragment: b"a" },
            Block::FollowOnFragment { last: true, message_id: 3, fragment_num: 127, fragment: b"b" },
            Block::FollowOnFragment { last: false, message_id: 3, fragment_num: 0, fragment: b"b" },
            Block::Termination { num_valid_pkts: u64::MAX, reason: 5 },
            Block::Ack { ack_through: 10, num_acks: 2, ranges: Ranges::new(&[1, 3]) },
            Block::Address { address: "10.0.0.1:8080".parse().unwrap() },
            Block::Address { address: "[2001:db8::1]:9".parse().unwrap() },
            Block::RelayTagRequest,
            Block::RelayTag { relay_tag: 6 },
            Block::NewToken { expires: 7, token: 0x0102030405060708 },
            Block::PathChallenge { challenge: b"path" },
            Block::PathResponse { response: b"path" },
            Block::FirstPacketNumber { first_pkt_num: 8 },
            Block::Congestion { flag: 9 },
            Block::Padding { padding: &[0; 9] },
            Block::Opaque { kind: 11, bytes: b"opaque" },
        ];
        let mut payload = vec![0; 500];
        let mut length = 0;
        for block in &all {
            length += block.write(&mut payload[length..]).unwrap();
        }
        let read: Vec<_> = blocks(&payload[..length]).map(|block| block.unwrap().1).collect();
        assert_eq!(read, all);
    }
}

mod acks {
    use super::*;

    fn of(numbers: impl IntoIterator<Item = u32>) -> RemoteAckManager {
        let mut acks = RemoteAckManager::new();
        numbers.into_iter().for_each(|n| acks.register_pkt(n).unwrap());
        acks
    }

    /// Through, count and pairs, asked twice.
    fn report(acks: &RemoteAckManager) -> (u32, u8, Vec<(u8, u8)>) {
        let info = acks.ack_info().unwrap();
        assert_eq!(acks.ack_info(), Ok(info));
        (info.highest_seen, info.num_acks, info.ranges().iter().collect())
    }

    #[test]
    fn missing_is_new() {
        let acks = of([5]);
        assert!(!acks.is_duplicate(4));
        assert!(acks.is_duplicate(5) && acks.is_duplicate(0));
    }

    #[test]
    fn nothing_seen() {
        assert_eq!(RemoteAckManager::new().ack_info(), Err(Refusal::NothingSeen));
        assert_eq!(RemoteAckManager::new().write_ack(&mut [0; 262]), Err(Refusal::NothingSeen));
    }

    #[test]
    fn too_high() {
        let mut acks = RemoteAckManager::new();
        assert_eq!(acks.register_pkt(256), Err(Refusal::NumberHigh));
        assert!(acks == RemoteAckManager::new());
    }

    #[test]
    fn asked_twice() {
        assert_eq!(report(&of([255])), (255, 0, vec![(254, 0)]));
    }

    #[test]
    fn late_number() {
        let mut acks = of([200, 400]);
        assert_eq!(acks.register_pkt(100), Err(Refusal::NumberLow));
        assert_eq!(report(&acks), (400, 0, vec![(199, 1), (54, 0)]));
        let mut list = [0; 255];
        let count = acks.ack_info().unwrap().expand(&mut list).unwrap();
        assert_eq!(list[..count], [400, 200]);
    }

    #[test]
    fn full_window() {
        assert_eq!(report(&of(1..=300)), (300, 254, vec![]));
    }

    #[test]
    fn long_run() {
        let acks = of((1..=300).chain([302]));
        assert_eq!(report(&acks), (302, 0, vec![(1, 253)]));
        let mut list = [0; 255];
        let count = acks.ack_info().unwrap().expand(&mut list).unwrap();
        assert!(list[..count].iter().copied().eq([302].into_iter().chain((48..=300).rev())));
    }

    #[test]
    fn last_number() {
        let mut acks = of((255..=u32::MAX).step_by(255));
        assert_eq!(acks.register_pkt(u32::MAX), Err(Refusal::NumberAgain));
        assert_eq!(acks.register_pkt(u32::MAX - 1), Ok(()));
        assert_eq!(acks.register_pkt(u32::MAX - 255), Err(Refusal::NumberLow));
        assert_eq!(report(&acks), (u32::MAX, 1, vec![(253, 0)]));
    }
}

mod reassembly {
    use super::*;

    #[test]
    fn above_the_last() {
        let mut lent = Lent::new();
        lent.keeps(first(1, b"\x0a"));
        lent.keeps(next(1, 2, true, b"\x0c"));
        assert_eq!(lent.refuses(next(1, 5, false, b"\x0f")), 55);
        assert_eq!(lent.finishes(next(1, 1, false, b"\x0b"), 3), b"\x0a\x0b\x0c");
    }

    #[test]
    fn other_bytes() {
        let mut lent = Lent::new();
        lent.keeps(first(1, b"\x0a"));
        assert_eq!(lent.refuses(first(1, b"\x0b")), 55);
        assert_eq!(lent.finishes(next(1, 1, true, b"\x0c"), 2), b"\x0a\x0c");
    }

    #[test]
    fn two_lasts() {
        let mut lent = Lent::new();
        lent.keeps(next(1, 1, true, b"\x0a"));
        assert_eq!(lent.refuses(next(1, 3, true, b"\x0b")), 55);
        assert_eq!(lent.finishes(first(1, b"\x0c"), 2), b"\x0c\x0a");
    }

    #[test]
    fn last_below() {
        let mut lent = Lent::new();
        lent.keeps(first(1, b"\x0a"));
        lent.keeps(next(1, 2, false, b"\x0b"));
        assert_eq!(lent.refuses(next(1, 1, true, b"\x0c")), 55);
    }

    #[test]
    fn follow_on_0() {
        let mut lent = Lent::new();
        assert_eq!(lent.refuses(next(1, 0, true, b"\x0a")), 51);
        lent.keeps(first(1, b"\x0b"));
    }

    #[test]
    fn follow_on_200() {
        let mut lent = Lent::new();
        assert_eq!(lent.refuses(next(1, 200, false, b"\x0a")), 51);
        assert_eq!(lent.refuses(next(1, 128, false, b"\x0a")), 51);
        lent.keeps(next(1, 127, true, b"\x0a"));
    }

    #[test]
    fn fifth_message() {
        let mut lent = Lent::new();
        (0..4).for_each(|id| lent.keeps(first(id, b"a")));
        assert_eq!(lent.refuses(first(4, b"a")), 52);
        lent.keeps(next(3, 2, true, b"c"));
    }

    #[test]
    fn long_message() {
        let mut lent = Lent::new();
        lent.keeps(first(1, &[1; 1_500]));
        (1..43).for_each(|n| lent.keeps(next(1, n, false, &[1; 1_500])));
        assert_eq!(lent.refuses(next(1, 43, true, &[2; 1_036])), 53); // 64,500 are held
        let message = [vec![1; 64_500], vec![2; 1_035]].concat();
        assert_eq!(lent.finishes(next(1, 43, true, &[2; 1_035]), 65_535), message);
    }

    #[test]
    fn piece_length() {
        let mut lent = Lent::new();
        assert_eq!(lent.refuses(first(1, b"")), 50);
        assert_eq!(lent.refuses(next(1, 1, true, &[0; 1_501])), 50);
        lent.keeps(next(1, 1, true, &[0; 1_500]));
    }

    #[test]
    fn sent_again() {
        let mut lent = Lent::new();
        lent.keeps(first(1, b"\x0a"));
        assert_eq!(lent.finishes(next(1, 1, true, b"\x0b"), 2), b"\x0a\x0b");
        assert_eq!(lent.refuses(first(1, b"\x0a")), 57);
        assert_eq!(lent.refuses(next(1, 1, true, b"\x0b")), 57);
        assert!(lent.is_empty());
    }

    #[test]
    fn late_piece_and_a_new_first() {
        let mut lent = Lent::new();
        lent.keeps(first(1, b"\x0a"));
        assert_eq!(lent.finishes(next(1, 1, true, b"\x0b"), 2), b"\x0a\x0b");
        assert_eq!(lent.refuses(next(1, 1, true, b"\x0b")), 57);
        assert_eq!(lent.refuses(first(1, b"\x0c")), 57);
        assert!(lent.is_empty());
    }

    #[test]
    fn swept() {
        let mut lent = Lent::new();
        lent.keeps(first(1, b"a"));
        lent.handler().sweep(NOW + 29);
        assert!(!lent.is_empty());
        lent.handler().sweep(NOW - 100); // opened later than this
        assert!(!lent.is_empty());
        lent.handler().sweep(NOW + 30);
        assert!(lent.is_empty());
    }
}
