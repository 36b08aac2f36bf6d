//! What the tests share: a store in lent bytes, and headers of every type.
#![allow(dead_code)] // each test file uses its part

use strawhub::{FragmentHandler, HeaderKind, Message, ProtocolVersion, Refusal, MESSAGE, NEIGHBOURS, RECORD, ROOM};

/// The second at which pieces come.
pub const NOW: u64 = 1_700_000_000;

pub const K1: [u8; 32] = [0x11; 32];
pub const K2: [u8; 32] = [0x22; 32];

/// A neighbour's share of the record, and in it the bytes of the heads of its slots and the place of the summary's number.
pub const SHARE: usize = RECORD / NEIGHBOURS as usize;
pub const HEADS: usize = 4 * 24;
pub const SUMMARY: usize = HEADS + 4 * 512;

/// What came of a piece: nothing yet, or a message.
pub type Piece<'a> = Result<Option<Message<'a>>, Refusal>;

/// A store's bytes, as a daemon would keep them.
#[derive(Clone, PartialEq)]
pub struct Lent {
    pub record: Vec<u8>,
    pub room: Vec<u8>,
    pub assembly: Vec<u8>,
}

impl Lent {
    /// An empty store; what stands in room and buffer does not matter.
    pub fn new() -> Self {
        Lent { record: vec![0; RECORD], room: vec![0xa5; ROOM], assembly: vec![0x5a; MESSAGE] }
    }

    pub fn handler(&mut self) -> FragmentHandler<'_> {
        FragmentHandler::resume(&mut self.record, &mut self.room, &mut self.assembly).unwrap()
    }

    /// A piece that must be kept.
    pub fn keeps(&mut self, piece: impl FnOnce(&mut FragmentHandler<'_>) -> Result<bool, Refusal>) {
        assert_eq!(piece(&mut self.handler()), Ok(false));
    }

    /// A piece that must be refused, with every byte as it was.
    pub fn refuses(&mut self, piece: impl FnOnce(&mut FragmentHandler<'_>) -> Result<bool, Refusal>) -> u8 {
        let before = self.clone();
        let refusal = piece(&mut self.handler()).unwrap_err();
        assert!(*self == before, "{refusal:?} changed a lent byte");
        refusal.number()
    }

    /// A piece that must finish a message, which is given as its bytes.
    pub fn finishes(
        &mut self,
        piece: impl FnOnce(&mut FragmentHandler<'_>) -> Result<bool, Refusal>,
        length: usize,
    ) -> &[u8] {
        assert_eq!(piece(&mut self.handler()), Ok(true));
        &self.assembly[..length]
    }

    /// How many messages each neighbour has open, by the record.
    pub fn summary(&self) -> [u8; 4] {
        [0, 1, 2, 3].map(|n| self.record[n * SHARE + SUMMARY])
    }

    /// Whether each neighbour can open exactly 4 messages, and so none was open.
    pub fn is_empty(&self) -> bool {
        let mut fresh = self.clone();
        let mut handler = fresh.handler();
        let mut open = |n, id| handler.first_fragment_from(n, 20, id, 1, NOW, b"x").map(|_| ());
        (0..NEIGHBOURS)
            .all(|n| (9_000..9_004).all(|id| open(n, id) == Ok(())) && open(n, 9_004) == Err(Refusal::StoreFull))
    }
}

/// A first piece of message `id`, of type 20.
pub fn first(id: u32, bytes: &[u8]) -> impl FnOnce(&mut FragmentHandler<'_>) -> Result<bool, Refusal> + '_ {
    move |handler| handler.first_fragment(20, id, 9, NOW, bytes).map(|m| m.is_some())
}

/// A first piece of neighbour n's message `id`, of type 20.
pub fn first_from(
    n: u64,
    id: u32,
    bytes: &[u8],
) -> impl FnOnce(&mut FragmentHandler<'_>) -> Result<bool, Refusal> + '_ {
    move |handler| handler.first_fragment_from(n, 20, id, 9, NOW, bytes).map(|m| m.is_some())
}

/// A follow-on piece of neighbour n's message `id`.
pub fn next_from(
    n: u64,
    id: u32,
    number: u8,
    last: bool,
    bytes: &[u8],
) -> impl FnOnce(&mut FragmentHandler<'_>) -> Result<bool, Refusal> + '_ {
    move |handler| handler.follow_on_fragment_from(n, id, number, last, NOW, bytes).map(|m| m.is_some())
}

/// A follow-on piece of message `id`.
pub fn next(
    id: u32,
    number: u8,
    last: bool,
    bytes: &[u8],
) -> impl FnOnce(&mut FragmentHandler<'_>) -> Result<bool, Refusal> + '_ {
    move |handler| handler.follow_on_fragment(id, number, last, NOW, bytes).map(|m| m.is_some())
}

/// A header of each type, no two numbers in one alike.
pub fn headers() -> [HeaderKind; 8] {
    let (dst_id, pkt_num, net_id, src_id, token) =
        (0x0102030405060708, 0x11121314, 2, 0x2122232425262728, 0x3132333435363738);
    let (version, ephemeral_key) = (ProtocolVersion::V3, core::array::from_fn(|i| 0x40 + i as u8));
    [
        HeaderKind::SessionRequest { dst_id, pkt_num, version, net_id, src_id, token, ephemeral_key },
        HeaderKind::SessionCreated { dst_id, pkt_num, version, net_id, src_id, token, ephemeral_key },
        HeaderKind::SessionConfirmed { dst_id, pkt_num: 0, fragment: 3, num_fragments: 5 },
        HeaderKind::Data { dst_id, pkt_num, immediate_ack: true },
        HeaderKind::PeerTest { dst_id, pkt_num, version, net_id, src_id, token },
        HeaderKind::Retry { dst_id, pkt_num, version, net_id, src_id, token },
        HeaderKind::TokenRequest { dst_id, pkt_num, version, net_id, src_id, token },
        HeaderKind::HolePunch { dst_id, pkt_num, version, net_id, src_id, token },
    ]
}

/// A packet of so many bytes with a header.
pub fn packet(header: HeaderKind, length: usize) -> Vec<u8> {
    let mut pkt: Vec<u8> = (0..length).map(|i| (i * 7 + 3) as u8).collect();
    header.write(K1, K2, &mut pkt).unwrap();
    pkt
}

/// A Data packet whose plain header has other bytes at 12 and 13: masks are XORs, so a bit that is
/// changed under the mask is that bit changed in the plain header.
pub fn packet_as(kind: u8, byte13: u8, length: usize) -> Vec<u8> {
    let mut pkt = packet(HeaderKind::Data { dst_id: 1, pkt_num: 9, immediate_ack: false }, length);
    pkt[12] ^= 6 ^ kind;
    pkt[13] ^= byte13;
    pkt
}
