//! The sender: the readings of document 02 by their numbers, and both ends over a network that loses, repeats and
//! reorders.

use std::collections::{BTreeMap, BTreeSet};
use strawhub::{blocks, AckInfo, Block, Outstanding, Ranges, Refusal, RemoteAckManager, Sender, MOST_OUTSTANDING};

/// A sender that has given out 1 to n, all at second 10.
fn given_out(n: u32) -> Sender {
    let mut sender = Sender::new();
    assert!((1..=n).all(|number| sender.send(10) == Ok(number)));
    sender
}

fn numbers(sender: &Sender) -> Vec<u32> {
    sender.outstanding().map(|packet| packet.number).collect()
}

/// An Ack block that is taken: the numbers that it settles. The rest of the lent list stays.
fn settles(sender: &mut Sender, through: u32, count: u8, pairs: &[u8]) -> Vec<u32> {
    let mut list = [7_777; MOST_OUTSTANDING];
    let settled = sender.ack(through, count, Ranges::new(pairs), &mut list).unwrap().to_vec();
    assert!(list[settled.len()..].iter().all(|&number| number == 7_777));
    settled
}

/// A report of the far end, fed in.
fn settled_by(sender: &mut Sender, report: &AckInfo) -> Vec<u32> {
    settles(sender, report.highest_seen, report.num_acks, report.ranges().as_bytes())
}

/// A call that is refused and changes nothing.
fn refuses<T: std::fmt::Debug>(sender: &mut Sender, call: impl FnOnce(&mut Sender) -> Result<T, Refusal>) -> u8 {
    let before = sender.clone();
    let refusal = call(sender).unwrap_err();
    assert_eq!(*sender, before, "{refusal:?} changed the sender");
    refusal.number()
}

/// An Ack block that is refused and changes nothing.
fn refuses_ack(sender: &mut Sender, through: u32, count: u8, pairs: &[u8]) -> u8 {
    let mut list = [7_777; MOST_OUTSTANDING];
    let number = refuses(sender, |s| s.ack(through, count, Ranges::new(pairs), &mut list).map(<[u32]>::len));
    assert_eq!(list, [7_777; MOST_OUTSTANDING]);
    number
}

mod readings {
    use super::*;

    /// 6.1
    #[test]
    fn a_resend_takes_the_next_number_its_own_second_and_one_more() {
        let mut sender = given_out(3);
        assert_eq!(sender.resend(2, 17), Ok(4));
        let packets: Vec<_> = sender.outstanding().collect();
        let first = |number| Outstanding { number, sent: 10, resends: 0 };
        assert_eq!(packets, [first(1), first(3), Outstanding { number: 4, sent: 17, resends: 1 }]);
        assert_eq!(sender.resend(4, u64::MAX), Ok(5));
        assert_eq!(sender.outstanding().last(), Some(Outstanding { number: 5, sent: u64::MAX, resends: 2 }));
    }

    // 6.2 stands beside the code: no test has the time to use up the numbers

    /// 6.3, 6.4
    #[test]
    fn an_ack_of_what_was_never_given_out_settles_nothing() {
        let mut sender = given_out(3);
        assert_eq!(refuses_ack(&mut sender, 4, 3, &[]), 72);
        assert_eq!(refuses_ack(&mut sender, 4, 0, &[1, 1]), 72);
        assert_eq!(refuses_ack(&mut sender, u32::MAX, 255, &[255; 600]), 72);
        assert_eq!(refuses_ack(&mut sender, 4, 5, &[]), 44);
        assert_eq!(refuses_ack(&mut sender, 3, 0, &[3, 1]), 44);
        assert_eq!(numbers(&sender), [1, 2, 3]);
        assert_eq!(refuses_ack(&mut Sender::new(), 1, 0, &[]), 72);
    }

    /// 6.5
    #[test]
    fn what_was_given_up_stays_given_up() {
        let mut sender = given_out(3);
        assert_eq!(sender.resend(2, 17), Ok(4));
        assert_eq!(settles(&mut sender, 3, 2, &[]), [1, 3]);
        assert_eq!(numbers(&sender), [4]);
        assert_eq!(settles(&mut sender, 4, 4, &[]), [4]);
    }

    /// 6.6, 6.8
    #[test]
    fn number_0_and_an_ack_that_settles_nothing() {
        let mut sender = Sender::new();
        assert_eq!(settles(&mut sender, 0, 0, &[]), []);
        assert_eq!(refuses(&mut sender, |s| s.resend(0, 10)), 73);
        let mut sender = given_out(3);
        assert_eq!(settles(&mut sender, 0, 0, &[]), []);
        assert_eq!(sender, given_out(3));
    }

    /// 6.7
    #[test]
    fn an_odd_last_byte_is_dropped() {
        let mut sender = given_out(3);
        assert_eq!(settles(&mut sender, 3, 0, &[1, 1, 1]), [1, 3]);
        assert_eq!(numbers(&sender), [2]);
    }

    /// 6.9
    #[test]
    fn a_full_list_takes_a_resend() {
        let mut sender = given_out(256);
        assert_eq!(sender.outstanding_count(), MOST_OUTSTANDING);
        assert_eq!(refuses(&mut sender, |s| s.send(11)), 70);
        assert_eq!(sender.resend(256, 11), Ok(257));
        assert_eq!(refuses(&mut sender, |s| s.send(11)), 70);
        assert_eq!(settles(&mut sender, 257, 0, &[]), [257]);
        assert_eq!(sender.send(12), Ok(258));
    }

    /// 6.11
    #[test]
    fn settled_and_given_up_are_not_outstanding() {
        let mut sender = given_out(2);
        assert_eq!(sender.resend(1, 11), Ok(3));
        assert_eq!(settles(&mut sender, 2, 0, &[]), [2]);
        assert_eq!(numbers(&sender), [3]);
        assert_eq!([0, 1, 2, 4].map(|number| refuses(&mut sender, |s| s.resend(number, 12))), [73; 4]);
    }

    /// 6.12
    #[test]
    fn reports_may_come_late_and_again() {
        let (mut sender, mut far) = (given_out(2), RemoteAckManager::new());
        far.register_pkt(1).unwrap();
        let a = far.ack_info().unwrap();
        far.register_pkt(2).unwrap();
        let b = far.ack_info().unwrap();
        assert_eq!([b, a, a].map(|report| settled_by(&mut sender, &report)), [vec![1, 2], vec![], vec![]]);
    }

    /// 6.13
    #[test]
    fn after_255_lost_numbers_every_later_one_is_refused() {
        let mut far = RemoteAckManager::new();
        assert!((256..600).all(|number| far.register_pkt(number) == Err(Refusal::NumberHigh)));

        // one packet, sent and sent again 255 times, all lost
        let mut sender = given_out(1);
        assert!((1..=255).all(|number| sender.resend(number, 11) == Ok(number + 1)));
        assert_eq!(sender.outstanding().collect::<Vec<_>>(), [Outstanding { number: 256, sent: 11, resends: 255 }]);
        assert_eq!(far.register_pkt(256), Err(Refusal::NumberHigh));
    }
}

#[test]
fn an_ack_settles_all_256_or_every_second_one() {
    assert!(settles(&mut given_out(256), 256, 255, &[]).into_iter().eq(1..=256));
    let mut sender = given_out(256);
    assert!(settles(&mut sender, 256, 0, &[1; 254]).into_iter().eq((2..=256).step_by(2)));
    assert!(numbers(&sender).into_iter().eq((1..=255).step_by(2)));
}

#[test]
fn equal_senders_and_what_one_looks_like() {
    // two ways to the same packets: what is left of settled ones does not count
    let (mut one, mut other) = (given_out(3), given_out(3));
    settles(&mut one, 1, 0, &[]);
    settles(&mut one, 2, 0, &[]);
    settles(&mut other, 2, 1, &[]);
    assert_eq!(one, other);
    assert_ne!(one, given_out(3));
    assert_ne!(Sender::new(), {
        let mut sender = given_out(1);
        settles(&mut sender, 1, 0, &[]);
        sender
    });
    assert_eq!(format!("{one:?}"), "Sender [Outstanding { number: 3, sent: 10, resends: 0 }]");
    assert!(given_out(3).outstanding().rev().map(|packet| packet.number).eq([3, 2, 1]));
    assert_eq!(Sender::default().outstanding().len(), 0);
}

/// Numbers from a seed: xorshift64*.
struct Random(u64);

impl Random {
    fn below(&mut self, n: usize) -> usize {
        self.0 ^= self.0 >> 12;
        self.0 ^= self.0 << 25;
        self.0 ^= self.0 >> 27;
        (self.0.wrapping_mul(0x2545_f491_4f6c_dd1d) >> 33) as usize % n
    }

    fn percent(&mut self, n: usize) -> bool {
        self.below(100) < n
    }
}

/// What is on its way: some is lost, some comes again, and it comes in any order.
struct Channel<T> {
    way: Vec<T>,
    lost: usize, // of a hundred
}

impl<T: Clone> Channel<T> {
    fn put(&mut self, random: &mut Random, x: T) {
        if !random.percent(self.lost) {
            self.way.push(x);
        }
    }

    /// What arrives next. A tenth of it stays on its way too, and arrives once more.
    fn arrives(&mut self, random: &mut Random) -> Option<T> {
        let at = random.below(self.way.len().max(1)).max(self.way.len().saturating_sub(20));
        let x = self.way.get(at)?.clone();
        if !random.percent(10) {
            self.way.swap_remove(at);
        }
        Some(x)
    }
}

/// Both ends, with the books of what was given out, kept beside the library.
struct Ends {
    sender: Sender,
    far: RemoteAckManager,
    packets: Channel<u32>,
    acks: Channel<Vec<u8>>,
    random: Random,
    rules: bool, // whether the two rules of 6.13 are kept
    highest: u32,
    outstanding: BTreeMap<u32, (u64, u32)>,
    settled: BTreeSet<u32>,
    given_up: BTreeSet<u32>,
    registered: BTreeSet<u32>,
    too_high: usize, // how often the far end refused by 40
}

impl Ends {
    fn new(seed: u64, lost: usize, rules: bool) -> Ends {
        Ends {
            sender: Sender::new(),
            far: RemoteAckManager::new(),
            packets: Channel { way: Vec::new(), lost },
            acks: Channel { way: Vec::new(), lost },
            random: Random(seed),
            rules,
            highest: 0,
            outstanding: BTreeMap::new(),
            settled: BTreeSet::from([0]),
            given_up: BTreeSet::new(),
            registered: BTreeSet::new(),
            too_high: 0,
        }
    }

    /// The two rules, for the number that takes the place of one, or of none.
    fn may_give_out(&self, leaving: Option<u32>) -> bool {
        let next = self.highest + 1;
        let lowest = self.outstanding.keys().copied().find(|&n| Some(n) != leaving).unwrap_or(next);
        !self.rules || (next - lowest < 255 && next - self.settled.last().unwrap() <= 255)
    }

    fn send(&mut self, now: u64) {
        let full = self.outstanding.len() == MOST_OUTSTANDING;
        match self.sender.send(now) {
            Ok(number) => {
                assert!(!full && number == self.highest + 1);
                self.given_out(number, now, 0);
            }
            Err(refusal) => assert!(full && refusal == Refusal::SenderFull),
        }
    }

    fn resend(&mut self, old: u32, now: u64) {
        let number = self.sender.resend(old, now).unwrap();
        let (_, resends) = self.outstanding.remove(&old).unwrap();
        self.given_up.insert(old);
        self.given_out(number, now, resends + 1);
    }

    fn given_out(&mut self, number: u32, now: u64, resends: u32) {
        self.highest = number;
        self.outstanding.insert(number, (now, resends));
        self.packets.put(&mut self.random, number);
    }

    /// A packet arrives at the far end, which answers with an Ack block.
    fn arrive(&mut self) {
        let Some(number) = self.packets.arrives(&mut self.random) else { return };
        match self.far.register_pkt(number) {
            Ok(()) => assert!(self.registered.insert(number)),
            Err(Refusal::NumberAgain) => assert!(self.registered.contains(&number)),
            Err(refusal) => self.too_high += usize::from(refusal == Refusal::NumberHigh),
        }
        let mut room = [0; 262];
        if let Ok(length) = self.far.write_ack(&mut room) {
            self.acks.put(&mut self.random, room[..length].to_vec());
        }
    }

    /// A payload arrives at this end: its Ack block settles packets.
    fn acknowledged(&mut self) {
        let Some(payload) = self.acks.arrives(&mut self.random) else { return };
        let mut list = [0; MOST_OUTSTANDING];
        for block in blocks(&payload) {
            let (_, Block::Ack { ack_through, num_acks, ranges }) = block.unwrap() else { panic!("an Ack block") };
            let settled = self.sender.ack(ack_through, num_acks, ranges, &mut list).unwrap();
            assert!(settled.windows(2).all(|pair| pair[0] < pair[1]));
            for number in settled {
                assert!(self.outstanding.remove(number).is_some() && self.settled.insert(*number));
            }
        }
    }

    /// What is shown of every history: each number given out stands in one of the three, and what is settled was registered.
    fn check(&self) {
        assert!(self.sender.outstanding().map(|p| (p.number, (p.sent, p.resends))).eq(self.outstanding.clone()));
        assert_eq!(self.settled.len() + self.given_up.len() + self.outstanding.len(), self.highest as usize + 1);
        for number in 0..=self.highest {
            let sets = [&self.settled, &self.given_up].map(|set| set.contains(&number));
            let places = sets.into_iter().chain([self.outstanding.contains_key(&number)]);
            assert_eq!(places.filter(|&there| there).count(), 1, "{number}");
        }
        assert!(self.settled.iter().all(|number| *number == 0 || self.registered.contains(number)));
    }

    /// What is out for too long goes out again, the oldest first, as far as the rules let it.
    fn resend_late(&mut self, now: u64) {
        let late: Vec<u32> =
            self.outstanding.iter().filter(|(_, &(sent, _))| sent + 40 <= now).map(|(&n, _)| n).collect();
        for old in late {
            if self.may_give_out(Some(old)) {
                self.resend(old, now);
            }
        }
    }

    /// So many packets are sent, and then no more, until none is outstanding or the time is up.
    fn run(&mut self, packets: usize, end: u64) {
        let mut left = packets;
        for now in 0..end {
            for _ in 0..self.random.below(4) {
                if left > 0 && self.may_give_out(None) && self.outstanding.len() < MOST_OUTSTANDING {
                    self.send(now);
                    left -= 1;
                }
            }
            (0..self.random.below(5)).for_each(|_| self.arrive());
            (0..self.random.below(5)).for_each(|_| self.acknowledged());
            self.resend_late(now);
            if now % 64 == 0 {
                self.check();
            }
            if left + self.outstanding.len() == 0 {
                break;
            }
        }
        self.check();
    }
}

/// With both rules kept, a third lost each way: 40 does not come, and every packet is settled in the end.
#[test]
fn a_lossy_network_with_the_rules_kept() {
    for seed in 1..=4 {
        let mut ends = Ends::new(seed, 33, true);
        ends.run(1_500, 40_000);
        assert_eq!((ends.sender.outstanding_count(), ends.too_high), (0, 0), "seed {seed}");
        assert!(ends.settled.len() == 1_501 && !ends.given_up.is_empty() && ends.highest > 1_500);
    }
}

/// Without the rules, and with nearly all lost: the far end refuses by 40 in the end, and what is shown of every
/// history holds all the same.
#[test]
fn a_network_that_loses_nearly_all() {
    let mut refused = 0;
    for seed in 1..=4 {
        let mut ends = Ends::new(seed, 99, false);
        ends.run(3_000, 600);
        (0..MOST_OUTSTANDING + 1).for_each(|_| ends.send(600)); // up to the full list and once more
        ends.check();
        refused += ends.too_high;
    }
    assert!(refused > 0);
}
