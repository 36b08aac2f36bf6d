//! The README's examples, which have to be these.

mod common;

use strawhub::STORAGE;

// README
use strawhub::{blocks, FragmentStorage, HeaderKind, HeaderReader, Message, Refusal, RemoteAckManager};

struct Session {
    k_header_1: [u8; 32],
    k_header_2: [u8; 32],
    acks: RemoteAckManager,            // 259 bytes
    storage: FragmentStorage<Vec<u8>>, // over(vec![0; STORAGE]); a static or a slice will do too
}

impl Session {
    /// A packet came. Refused, it is as it came, for another session to try.
    fn header(&self, packet: &mut [u8]) -> Result<HeaderKind, Refusal> {
        HeaderReader::new(self.k_header_1, packet)?.parse(self.k_header_2)
    }

    /// A Data packet's payload, authenticated and decrypted: its number is registered, and every message in it, whole
    /// or rebuilt, has arrived. Registered any earlier, a forged packet could take the true one's number.
    fn data<F>(&mut self, pkt_num: u32, payload: &[u8], now: u64, mut arrived: F) -> Result<(), Refusal>
    where
        F: FnMut(Message<'_>),
    {
        self.acks.register_pkt(pkt_num)?; // 42, 43: late or a repeat, and not read
        let mut handler = self.storage.handler();
        handler.sweep(now); // drops messages opened 30 seconds ago, forgets those finished 30 seconds ago
        for block in blocks(payload) {
            let (place, _) = block.map_err(|refused| refused.refusal)?;
            match handler.deliver(payload, place, now) {
                Ok(delivered) => delivered.message().into_iter().for_each(&mut arrived),
                Err(refused) => eprintln!("{}: {refused}", refused.number()), // 54, 57: a repeat; the rest is still read
            }
        }
        Ok(())
    }
}
// README

mod sending {
    // SENDING
    use strawhub::{blocks, Block, Refusal, Sender, MOST_OUTSTANDING};

    /// An Ack block came in a payload: the packets that it settles have arrived, and their buffers may go.
    fn acknowledged<F: FnMut(u32)>(sender: &mut Sender, payload: &[u8], mut arrived: F) -> Result<(), Refusal> {
        let mut settled = [0; MOST_OUTSTANDING];
        for block in blocks(payload) {
            if let (_, Block::Ack { ack_through, num_acks, ranges }) = block.map_err(|refused| refused.refusal)? {
                let settled = sender.ack(ack_through, num_acks, ranges, &mut settled)?; // 44, 72: the far end is at fault
                settled.iter().for_each(|&pkt_num| arrived(pkt_num));
            }
        }
        Ok(())
    }

    /// What is outstanding for 3 seconds goes out again, the oldest first: its old number is given up, its new one told.
    fn resend_late<F: FnMut(u32, u32)>(sender: &mut Sender, now: u64, mut again: F) -> Result<(), Refusal> {
        while let Some(late) = sender.oldest().filter(|packet| packet.sent + 3 <= now) {
            again(late.number, sender.resend(late.number, now)?);
        }
        Ok(())
    }
    // SENDING

    #[test]
    fn the_readme_sends_so() {
        let example = include_str!("readme.rs").split("    // SENDING\n").nth(1).unwrap();
        let lines: String =
            example.lines().map(|line| format!("{}\n", line.strip_prefix("    ").unwrap_or(line))).collect();
        assert!(include_str!("../../README.md").contains(&lines));
    }

    #[test]
    fn a_page_goes_out_again_until_it_arrives() {
        let (mut sender, mut far) = (Sender::new(), strawhub::RemoteAckManager::new());
        assert_eq!((sender.send(10), sender.send(10)), (Ok(1), Ok(2)));
        far.register_pkt(2).unwrap(); // 1 is lost
        let mut payload = [0; 262];
        let length = far.write_ack(&mut payload).unwrap();
        let mut arrived = Vec::new();
        acknowledged(&mut sender, &payload[..length], |n| arrived.push(n)).unwrap();
        assert_eq!(arrived, [2]);

        let mut again = Vec::new();
        resend_late(&mut sender, 12, |old, new| again.push((old, new))).unwrap();
        assert_eq!(again, []);
        resend_late(&mut sender, 13, |old, new| again.push((old, new))).unwrap();
        assert_eq!(again, [(1, 3)]);

        far.register_pkt(3).unwrap();
        let length = far.write_ack(&mut payload).unwrap();
        acknowledged(&mut sender, &payload[..length], |n| arrived.push(n)).unwrap();
        assert_eq!((arrived, sender.outstanding_count()), (vec![2, 3], 0));

        // an Ack block that names a number never given out settles nothing
        let forged = [12, 0, 5, 0, 0, 0, 9, 0];
        assert_eq!(acknowledged(&mut sender, &forged, |_| panic!("nothing arrived")), Err(Refusal::NeverGivenOut));
    }
}

fn session() -> Session {
    Session {
        k_header_1: common::K1,
        k_header_2: common::K2,
        acks: RemoteAckManager::new(),
        storage: FragmentStorage::over(vec![0; STORAGE]).unwrap(),
    }
}

#[test]
fn the_readme_has_this_session() {
    let example = include_str!("readme.rs").split("// README\n").nth(1).unwrap();
    assert!(include_str!("../../README.md").contains(example));
}

#[test]
fn a_session_receives_a_letter_once() {
    let mut session = session();
    let mut packet = common::packet(HeaderKind::Data { dst_id: 1, pkt_num: 5, immediate_ack: true }, 60);
    let Ok(HeaderKind::Data { pkt_num, immediate_ack: true, .. }) = session.header(&mut packet) else {
        panic!("the header is the one that was written")
    };

    // pieces 1 (the last), 1 again, 0
    let last = b"\x05\x00\x07\x03\x00\x00\x00\x07cd";
    let payload = [&last[..], &last[..], b"\x04\x00\x0b\x14\x00\x00\x00\x07\x00\x00\x00\x09ab"].concat();
    let mut letters = Vec::new();
    session.data(pkt_num, &payload, common::NOW, |message| letters.push(message.payload.to_vec())).unwrap();
    assert_eq!(letters, [b"abcd"]);
    assert_eq!(session.acks.ack_info().unwrap().highest_seen, 5);

    // the same packet again is not read again; a payload that ends inside a block is refused there
    let again = session.data(pkt_num, &payload, common::NOW, |_| panic!("a message arrived twice"));
    assert_eq!(again, Err(Refusal::NumberAgain));
    assert_eq!(session.data(6, &payload[..9], common::NOW, |_| ()), Err(Refusal::FollowOnBytes));
}

#[test]
fn a_forged_packet_takes_no_number() {
    let mut session = session();
    let header = HeaderKind::Data { dst_id: 1, pkt_num: 5, immediate_ack: false };

    // a forged packet with a readable header: its payload is not authenticated, so nothing is registered
    let mut forged = common::packet(header, 60);
    assert_eq!(session.header(&mut forged), Ok(header));
    assert_eq!(session.acks.ack_info(), Err(Refusal::NothingSeen));

    // the true one comes later
    let mut packet = common::packet(header, 80);
    assert_eq!(session.header(&mut packet).map(|header| header.pkt_num()), Ok(5));
    assert_eq!(session.data(5, b"\x00\x00\x04\x65\x53\xf1\x00", common::NOW, |_| ()), Ok(()));
}
