//! Which packets were sent, and which of them the far end has not acknowledged yet.

use crate::{ffi, Ranges, Refusal};
use core::fmt;

/// The bytes of a sender.
const SENDER: usize = 4_104;

/// The bytes in front of the packets, and those of a packet.
const HEAD: usize = 8;
const PACKET: usize = 16;

/// How many packets a [`Sender`] has outstanding at most.
pub const MOST_OUTSTANDING: usize = 256;

/// The packets that this end sent, of one session: at most 256 are outstanding.
///
/// Packet numbers are given out in order, from 1, and never twice. 0, the SessionConfirmed, counts as given out
/// and settled from the start. A number that was given out is outstanding until
///
/// - an Ack block names it: then it is settled, and its content has arrived;
/// - or its packet is sent again: then it is given up, and the packet is outstanding under a new number. A
///   number that was given up is never settled, also where an Ack block names it later.
///
/// There is no other way out of the list: nothing expires, and nothing is cancelled.
///
/// ```
/// use strawhub::{Refusal, Ranges, Sender, MOST_OUTSTANDING};
///
/// let mut sender = Sender::new();
/// assert_eq!((sender.send(100)?, sender.send(100)?, sender.send(101)?), (1, 2, 3));
///
/// // an Ack block: through 3, none directly below it, then one missing and one received
/// let mut settled = [0; MOST_OUTSTANDING];
/// assert_eq!(sender.ack(3, 0, Ranges::new(&[1, 1]), &mut settled)?, [1, 3]);
///
/// // 2 was lost: its content goes out again, under a new number
/// assert_eq!(sender.resend(2, 130)?, 4);
/// let packet = sender.oldest().unwrap();
/// assert_eq!((packet.number, packet.sent, packet.resends), (4, 130, 1));
/// assert_eq!(sender.resend(2, 131), Err(Refusal::NotOutstanding));
/// # Ok::<(), Refusal>(())
/// ```
///
/// # What is shown of it
///
/// At every moment the numbers given out are those outstanding, those settled and those given up, each in exactly
/// one of the three. And where the far [`RemoteAckManager`](crate::RemoteAckManager) registers only numbers of
/// this sender, and every Ack block that is fed in is its report, a number above 0 is settled only if it had been
/// registered there; packets and Ack blocks may be lost, repeated and reordered.
///
/// # What is not promised: progress
///
/// The far end refuses every number more than 255 above the highest that it registered (40), and a resend takes a
/// higher number. If the first 255 numbers are lost, it refuses all later ones, for ever. A daemon that keeps two
/// rules never gets there; the calls do not test them.
///
/// 1. Keep the span from the lowest outstanding number to the highest given out below 255. Then each outstanding
///    number is still in the far end's window, and can be registered and reported. Send the oldest packet again
///    before the span grows to 255.
/// 2. Give out no number, by a send or a resend, that is more than 255 above the highest settled one (0 at the
///    start). Then the far end cannot refuse by 40. Numbers given up count here too: one packet that was sent and
///    resent 255 times, all lost, ends up as number 256, the only one outstanding, and 256 is refused. If none of
///    those 255 arrives, the connection is lost: close it when no Ack block settles one.
///
/// The highest number given out is what the last [`send`](Sender::send) or [`resend`](Sender::resend) gave, the
/// lowest outstanding one is that of [`oldest`](Sender::oldest), and [`ack`](Sender::ack) gives the
/// settled ones. The example `send` of this crate keeps both rules.
#[derive(Clone)]
pub struct Sender {
    record: [u8; SENDER],
}

/// A packet that was sent and is not acknowledged yet.
#[derive(Debug, Clone, Copy, PartialEq, Eq, Hash)]
pub struct Outstanding {
    /// Its packet number.
    pub number: u32,

    /// The second at which it was sent under this number.
    pub sent: u64,

    /// How often it had been sent again by then.
    pub resends: u32,
}

impl Sender {
    /// One that has given out no number. These are 4,104 bytes, all zero.
    pub const fn new() -> Self {
        Sender { record: [0; SENDER] }
    }

    /// A packet is sent now: gives its number, which is then outstanding.
    ///
    /// Refuses where the last number, 4,294,967,295, was given out (71), or where 256 packets are outstanding (70).
    pub fn send(&mut self, now: u64) -> Result<u32, Refusal> {
        number(ffi::sender_send(&mut self.record, now))
    }

    /// The packet of a number is sent again now: gives its new number. The old one is given up; the new one is
    /// outstanding, with one resend more. This is fine where 256 are outstanding: one leaves and one comes.
    ///
    /// Refuses where the number is not outstanding (73), or where the last number was given out (71).
    pub fn resend(&mut self, pkt_num: u32, now: u64) -> Result<u32, Refusal> {
        number(ffi::sender_resend(&mut self.record, pkt_num, now))
    }

    /// An Ack block came, in a payload that was authenticated: settles the outstanding packets that it names, and
    /// gives their numbers, the oldest first, in the list that is lent for them. The rest of that list stays.
    ///
    /// There may be none: so it is with an Ack block that comes again, and with one that names 0 and numbers given
    /// up alone.
    ///
    /// Refuses one that goes below 0 (44), or whose through number was never given out (72). Then nothing is
    /// settled.
    ///
    /// ```
    /// use strawhub::{Block, RemoteAckManager, Sender, MOST_OUTSTANDING};
    ///
    /// let (mut sender, mut far) = (Sender::new(), RemoteAckManager::new());
    /// for _ in 0..5 {
    ///     sender.send(100)?;
    /// }
    /// for arrived in [1, 2, 5] {
    ///     far.register_pkt(arrived)?;
    /// }
    /// let mut payload = [0; 262];
    /// let length = far.write_ack(&mut payload)?;
    ///
    /// // back at this end
    /// let mut settled = [0; MOST_OUTSTANDING];
    /// if let (Block::Ack { ack_through, num_acks, ranges }, _) = Block::read(&payload[..length], 0)? {
    ///     assert_eq!(sender.ack(ack_through, num_acks, ranges, &mut settled)?, [1, 2, 5]);
    /// }
    /// assert!(sender.outstanding().map(|packet| packet.number).eq([3, 4]));
    /// # Ok::<(), Box<dyn std::error::Error>>(())
    /// ```
    pub fn ack<'a>(
        &mut self,
        ack_through: u32,
        num_acks: u8,
        ranges: Ranges<'_>,
        settled: &'a mut [u32; MOST_OUTSTANDING],
    ) -> Result<&'a [u32], Refusal> {
        let outcome = ffi::sender_ack(&mut self.record, ack_through, num_acks, ranges.as_bytes(), settled);
        Refusal::check(outcome.number)?;
        Ok(&settled[..outcome.value as usize])
    }

    /// The outstanding packets, the oldest first: their numbers rise.
    pub fn outstanding(&self) -> impl ExactSizeIterator<Item = Outstanding> + DoubleEndedIterator + '_ {
        (0..self.outstanding_count()).map(|k| {
            let mut out = [0; 3];
            ffi::sender_outstanding(&self.record, k, &mut out);
            let [number, sent, resends] = out;
            Outstanding { number: number as u32, sent, resends: resends as u32 }
        })
    }

    /// The oldest outstanding packet: the first of [`outstanding`](Sender::outstanding).
    pub fn oldest(&self) -> Option<Outstanding> {
        self.outstanding().next()
    }

    /// How many packets are outstanding.
    pub fn outstanding_count(&self) -> usize {
        ffi::sender_outstanding(&self.record, 0, &mut [0; 3]).value as usize
    }

    /// The bytes that count: the rest is left from packets that are outstanding no more.
    fn used(&self) -> &[u8] {
        &self.record[..HEAD + PACKET * self.outstanding_count()]
    }
}

/// The number that was given out.
fn number(outcome: ffi::Outcome) -> Result<u32, Refusal> {
    Refusal::check(outcome.number)?;
    Ok(outcome.value as u32)
}

impl Default for Sender {
    fn default() -> Self {
        Self::new()
    }
}

/// Equal are two that have given out the same numbers and have the same packets outstanding.
impl PartialEq for Sender {
    fn eq(&self, other: &Self) -> bool {
        self.used() == other.used()
    }
}

impl Eq for Sender {}

impl fmt::Debug for Sender {
    fn fmt(&self, f: &mut fmt::Formatter<'_>) -> fmt::Result {
        f.write_str("Sender ")?;
        f.debug_list().entries(self.outstanding()).finish()
    }
}

#[cfg(test)]
mod tests {
    use super::*;

    /// A sender with so many packets outstanding whose highest number given out is set by hand: no test has the time for
    /// four billion sends.
    fn near_the_last(outstanding: u32, highest: u32) -> Sender {
        let mut sender = Sender::new();
        (1..=outstanding).for_each(|n| assert_eq!(sender.send(10), Ok(n)));
        sender.record[..4].copy_from_slice(&highest.to_le_bytes());
        sender
    }

    /// 6.2 of document 02's readings: a send is refused by 71 before 70, a resend by 73 before 71.
    #[test]
    fn the_numbers_are_used_up() {
        let mut sender = near_the_last(256, u32::MAX);
        let before = sender.record;
        assert_eq!(sender.send(11), Err(Refusal::NumbersUsedUp));
        assert_eq!(sender.resend(5, 11), Err(Refusal::NumbersUsedUp));
        assert_eq!([0, 257, u32::MAX].map(|n| sender.resend(n, 11)), [Err(Refusal::NotOutstanding); 3]);
        assert_eq!(sender.record, before);

        let mut sender = near_the_last(2, u32::MAX - 2);
        assert_eq!(sender.send(11), Ok(u32::MAX - 1));
        assert_eq!(sender.resend(2, 12), Ok(u32::MAX));
        assert_eq!(sender.send(13), Err(Refusal::NumbersUsedUp));
        let mut settled = [0; MOST_OUTSTANDING];
        assert_eq!(sender.ack(u32::MAX, 1, Ranges::new(&[]), &mut settled), Ok(&[u32::MAX - 1, u32::MAX][..]));
        assert_eq!(sender.outstanding_count(), 1);
        assert_eq!(sender.resend(1, 14), Err(Refusal::NumbersUsedUp));
    }
}
