//! Sends pages over a network that loses packets, until the far end has acknowledged each: `cargo run --example send`.
use std::collections::BTreeMap;
use std::error::Error;
use strawhub::{blocks, Block, Outstanding, Refusal, RemoteAckManager, Sender, MOST_OUTSTANDING};

const PAGES: [&str; 6] = ["page 1", "page 2", "page 3", "page 4", "page 5", "page 6"];

/// A packet goes out again when no acknowledgement came for so many seconds.
const PATIENCE: u64 = 3;

/// What the sending end keeps of a session.
struct Session {
    sender: Sender,
    highest: u32,                       // the highest number given out
    highest_settled: u32,               // 0 counts as settled
    pages: BTreeMap<u32, &'static str>, // what went out under each number that is outstanding
}

impl Session {
    /// Whether the next number may be given out, `leaving` being the one that it takes the place of. The far end refuses
    /// what is more than 255 above the highest number that it has, so the span of outstanding numbers stays below 255, and
    /// no number is more than 255 above the highest settled one.
    fn may_give_out(&self, leaving: Option<u32>) -> bool {
        let next = self.highest + 1;
        let lowest = self.sender.outstanding().map(|packet| packet.number).find(|&number| Some(number) != leaving);
        next - lowest.unwrap_or(next) < 255 && next - self.highest_settled <= 255
    }

    fn send(&mut self, page: &'static str, now: u64) -> Result<u32, Refusal> {
        self.highest = self.sender.send(now)?;
        self.pages.insert(self.highest, page);
        println!("{now} s: {page} goes out as {}", self.highest);
        Ok(self.highest)
    }

    fn resend(&mut self, old: Outstanding, now: u64) -> Result<u32, Refusal> {
        self.highest = self.sender.resend(old.number, now)?;
        let page = self.pages.remove(&old.number).expect("an outstanding number has a page");
        self.pages.insert(self.highest, page);
        println!("{now} s: {page} goes out again as {}, and {} is given up", self.highest, old.number);
        Ok(self.highest)
    }

    /// A payload came from the far end, authenticated and decrypted: its Ack blocks settle packets.
    fn data(&mut self, payload: &[u8], now: u64) -> Result<(), Box<dyn Error>> {
        let mut settled = [0; MOST_OUTSTANDING];
        for block in blocks(payload) {
            let (_, Block::Ack { ack_through, num_acks, ranges }) = block? else { continue };
            // refused with 44 or 72, the far end is at fault: it acknowledges what was never sent
            for number in self.sender.ack(ack_through, num_acks, ranges, &mut settled)? {
                let page = self.pages.remove(number).expect("an outstanding number has a page");
                println!("{now} s: {page} has arrived, as {number}");
                self.highest_settled = self.highest_settled.max(*number);
            }
        }
        Ok(())
    }
}

fn main() -> Result<(), Box<dyn Error>> {
    let mut session = Session { sender: Sender::new(), highest: 0, highest_settled: 0, pages: BTreeMap::new() };
    let mut far = RemoteAckManager::new();
    let mut waiting = PAGES.iter();

    for now in 0.. {
        // two pages a second, and every packet that is out for too long; the oldest first
        let mut gone = Vec::new();
        let due: Vec<Outstanding> = session.sender.outstanding().filter(|old| old.sent + PATIENCE <= now).collect();
        for old in due {
            if !session.may_give_out(Some(old.number)) {
                return Err("none of 255 numbers has arrived: the connection is lost".into());
            }
            gone.push(session.resend(old, now)?);
        }
        for _ in 0..2 {
            if !session.may_give_out(None) {
                break;
            }
            let Some(page) = waiting.next() else { break };
            gone.push(session.send(page, now)?);
        }

        // the network loses packets 2, 5 and 7, and the Ack block of the first second
        for number in gone.into_iter().filter(|number| ![2, 5, 7].contains(number)) {
            far.register_pkt(number)?;
        }
        let mut payload = [0; 262];
        let length = far.write_ack(&mut payload)?;
        if now > 0 {
            session.data(&payload[..length], now)?;
        }
        if waiting.len() + session.sender.outstanding_count() == 0 {
            break;
        }
    }
    println!("all {} pages have arrived, in {} packets", PAGES.len(), session.highest);
    Ok(())
}
