//! Blocks of a payload: read, written, walked, listed.

use crate::{ffi, Entry, Message, Ranges, Refusal, RefusedAt};
use core::net::{IpAddr, SocketAddr};

/// A block, its bytes a part of the payload that it was read from.
#[derive(Debug, Clone, Copy, PartialEq, Eq, Hash)]
pub enum Block<'a> {
    /// Type 0: the sender's clock.
    DateTime {
        /// In seconds of Unix time.
        timestamp: u32,
    },

    /// Type 1: what the sender offers and asks for.
    Options {
        /// Least padding of what it sends.
        t_min: u8,
        /// Most padding of what it sends.
        t_max: u8,
        /// Least padding of what it receives.
        r_min: u8,
        /// Most padding of what it receives.
        r_max: u8,
        /// Dummy traffic that it sends.
        t_dmy: u16,
        /// Dummy traffic that it receives.
        r_dmy: u16,
        /// Delay of what it sends.
        t_delay: u16,
        /// Delay of what it receives.
        r_delay: u16,
    },

    /// Type 2: a router's description.
    RouterInfo {
        /// Bit 0 asks for it to be passed on, bit 1 says that it is packed.
        flag: u8,
        /// The fragment byte, as it stands.
        frag: u8,
        /// The description, not looked into.
        serialized: &'a [u8],
    },

    /// Type 3: a whole I2NP message.
    I2Np {
        /// The message.
        message: Message<'a>,
    },

    /// Type 4: the first piece of an I2NP message, with the message's head.
    FirstFragment {
        /// The message's type.
        message_type: u8,
        /// The message's id.
        message_id: u32,
        /// When the message lapses, in seconds of Unix time.
        expiration: u32,
        /// The piece.
        fragment: &'a [u8],
    },

    /// Type 5: another piece of an I2NP message.
    FollowOnFragment {
        /// Whether no piece has a higher number.
        last: bool,
        /// The message's id.
        message_id: u32,
        /// The piece's number.
        fragment_num: u8,
        /// The piece.
        fragment: &'a [u8],
    },

    /// Type 6: the session ends.
    Termination {
        /// How many good packets the sender has had.
        num_valid_pkts: u64,
        /// Why it ends, by number.
        reason: u8,
    },

    /// Type 12: an acknowledgement. [`expand`](crate::expand) gives the numbers that it names.
    Ack {
        /// The highest number that it names.
        ack_through: u32,
        /// How many directly below it are named too.
        num_acks: u8,
        /// The runs below those.
        ranges: Ranges<'a>,
    },

    /// Type 13: an address.
    Address {
        /// Its IP and port. The block has no flow or scope: those of an IPv6 address are 0.
        address: SocketAddr,
    },

    /// Type 15: a relay tag is asked for.
    RelayTagRequest,

    /// Type 16: a relay tag.
    RelayTag {
        /// The tag.
        relay_tag: u32,
    },

    /// Type 17: a token for the next session.
    NewToken {
        /// When it lapses, in seconds of Unix time.
        expires: u32,
        /// The token, its first byte the highest. A header reads those 8 bytes with the first the lowest.
        token: u64,
    },

    /// Type 18: bytes that are to come back.
    PathChallenge {
        /// The bytes.
        challenge: &'a [u8],
    },

    /// Type 19: bytes that came back.
    PathResponse {
        /// The bytes.
        response: &'a [u8],
    },

    /// Type 20: the packet number that a session starts with.
    FirstPacketNumber {
        /// The number.
        first_pkt_num: u32,
    },

    /// Type 21: how busy the sender is.
    Congestion {
        /// The flag byte.
        flag: u8,
    },

    /// Type 254: padding.
    Padding {
        /// The bytes.
        padding: &'a [u8],
    },

    /// A block of any other type.
    Opaque {
        /// The type byte.
        kind: u8,
        /// The body.
        bytes: &'a [u8],
    },
}

impl<'a> Block<'a> {
    /// Reads the block at a place of a payload, and gives it with the place after it.
    ///
    /// Refuses with 1 to 9.
    ///
    /// ```
    /// use strawhub::Block;
    ///
    /// // Address, then DateTime
    /// let payload = [13, 0, 6, 0x1f, 0x90, 10, 0, 0, 1, 0, 0, 4, 0, 0, 0, 7];
    /// let (block, next) = Block::read(&payload, 0)?;
    /// assert_eq!(block, Block::Address { address: "10.0.0.1:8080".parse().unwrap() });
    /// let (block, next) = Block::read(&payload, next)?;
    /// assert_eq!(block, Block::DateTime { timestamp: 7 });
    /// assert_eq!(next, payload.len());
    /// # Ok::<(), strawhub::RefusedAt>(())
    /// ```
    pub fn read(payload: &'a [u8], at: usize) -> Result<(Block<'a>, usize), RefusedAt> {
        let mut out = [0; 12];
        let outcome = ffi::block_read(payload, at, &mut out);
        Refusal::check(outcome.number).map_err(|refusal| RefusedAt { refusal, place: outcome.value as usize })?;
        let [kind, _size, start, length, fields @ ..] = out;
        let bytes = &payload[start as usize..][..length as usize];
        Ok((Block::from_numbers(kind as u8, fields, bytes), outcome.value as usize))
    }

    /// Writes the block to the start of a room, whose rest stays, and gives its length.
    ///
    /// Refuses a block that no reader would take (32): an empty fragment or router info, an I2NP type
    /// that is not listed, a fragment number above 127, an odd count of range bytes, an opaque block
    /// with the type of another; then a body above 65,535 bytes (31), then a short room (30).
    ///
    /// ```
    /// use strawhub::{Block, Refusal};
    ///
    /// let mut room = [0; 10];
    /// let length = Block::RelayTag { relay_tag: 5 }.write(&mut room)?;
    /// assert_eq!(room[..length], [16, 0, 4, 0, 0, 0, 5]);
    /// assert_eq!(Block::Padding { padding: &[0; 8] }.write(&mut room), Err(Refusal::RoomShort));
    /// # Ok::<(), Refusal>(())
    /// ```
    pub fn write(&self, room: &mut [u8]) -> Result<usize, Refusal> {
        if let Block::Opaque { kind, .. } = *self {
            if is_named(kind) {
                return Err(Refusal::BlockFaulty);
            }
        }
        let mut octets = [0; 16];
        let (fields, bytes) = self.numbers(&mut octets);
        let outcome = ffi::block_write(room, self.kind(), &fields, bytes);
        Refusal::check(outcome.number)?;
        Ok(outcome.value as usize)
    }

    /// The type byte.
    pub fn kind(&self) -> u8 {
        match *self {
            Block::DateTime { .. } => 0,
            Block::Options { .. } => 1,
            Block::RouterInfo { .. } => 2,
            Block::I2Np { .. } => 3,
            Block::FirstFragment { .. } => 4,
            Block::FollowOnFragment { .. } => 5,
            Block::Termination { .. } => 6,
            Block::Ack { .. } => 12,
            Block::Address { .. } => 13,
            Block::RelayTagRequest => 15,
            Block::RelayTag { .. } => 16,
            Block::NewToken { .. } => 17,
            Block::PathChallenge { .. } => 18,
            Block::PathResponse { .. } => 19,
            Block::FirstPacketNumber { .. } => 20,
            Block::Congestion { .. } => 21,
            Block::Padding { .. } => 254,
            Block::Opaque { kind, .. } => kind,
        }
    }

    /// A block by its type, the library's numbers for its fields and the bytes after them.
    fn from_numbers(kind: u8, f: [u64; 8], bytes: &'a [u8]) -> Block<'a> {
        let f32s = f.map(|x| x as u32);
        let f16s = f.map(|x| x as u16);
        let f8s = f.map(|x| x as u8);
        match kind {
            0 => Block::DateTime { timestamp: f32s[0] },
            1 => Block::Options {
                t_min: f8s[0],
                t_max: f8s[1],
                r_min: f8s[2],
                r_max: f8s[3],
                t_dmy: f16s[4],
                r_dmy: f16s[5],
                t_delay: f16s[6],
                r_delay: f16s[7],
            },
            2 => Block::RouterInfo { flag: f8s[0], frag: f8s[1], serialized: bytes },
            3 => Block::I2Np {
                message: Message { message_type: f8s[0], message_id: f32s[1], expiration: f32s[2], payload: bytes },
            },
            4 => {
                Block::FirstFragment { message_type: f8s[0], message_id: f32s[1], expiration: f32s[2], fragment: bytes }
            }
            5 => {
                Block::FollowOnFragment { fragment_num: f8s[0], last: f[1] != 0, message_id: f32s[2], fragment: bytes }
            }
            6 => Block::Termination { num_valid_pkts: f[0], reason: f8s[1] },
            12 => Block::Ack { ack_through: f32s[0], num_acks: f8s[1], ranges: Ranges::new(bytes) },
            13 => Block::Address { address: SocketAddr::new(ip_of(bytes), f16s[0]) },
            15 => Block::RelayTagRequest,
            16 => Block::RelayTag { relay_tag: f32s[0] },
            17 => Block::NewToken { expires: f32s[0], token: f[1] },
            18 => Block::PathChallenge { challenge: bytes },
            19 => Block::PathResponse { response: bytes },
            20 => Block::FirstPacketNumber { first_pkt_num: f32s[0] },
            21 => Block::Congestion { flag: f8s[0] },
            254 => Block::Padding { padding: bytes },
            kind => Block::Opaque { kind, bytes },
        }
    }

    /// The same way back; an address's bytes go through `octets`.
    fn numbers<'o>(&self, octets: &'o mut [u8; 16]) -> ([u64; 8], &'o [u8])
    where
        'a: 'o,
    {
        let mut fields = [0; 8];
        let mut put = |numbers: &[u64]| fields[..numbers.len()].copy_from_slice(numbers);
        let bytes: &[u8] = match *self {
            Block::DateTime { timestamp: number }
            | Block::RelayTag { relay_tag: number }
            | Block::FirstPacketNumber { first_pkt_num: number } => {
                put(&[number.into()]);
                &[]
            }
            Block::Options { t_min, t_max, r_min, r_max, t_dmy, r_dmy, t_delay, r_delay } => {
                put(&[t_min, t_max, r_min, r_max].map(u64::from));
                fields[4..].copy_from_slice(&[t_dmy, r_dmy, t_delay, r_delay].map(u64::from));
                &[]
            }
            Block::RouterInfo { flag, frag, serialized } => {
                put(&[flag.into(), frag.into()]);
                serialized
            }
            Block::I2Np { message: Message { message_type, message_id, expiration, payload: bytes } }
            | Block::FirstFragment { message_type, message_id, expiration, fragment: bytes } => {
                put(&[message_type.into(), message_id.into(), expiration.into()]);
                bytes
            }
            Block::FollowOnFragment { last, message_id, fragment_num, fragment } => {
                put(&[fragment_num.into(), last.into(), message_id.into()]);
                fragment
            }
            Block::Termination { num_valid_pkts, reason } => {
                put(&[num_valid_pkts, reason.into()]);
                &[]
            }
            Block::Ack { ack_through, num_acks, ranges } => {
                put(&[ack_through.into(), num_acks.into()]);
                ranges.as_bytes()
            }
            Block::Address { address } => {
                put(&[address.port().into()]);
                put_ip(address.ip(), octets)
            }
            Block::NewToken { expires, token } => {
                put(&[expires.into(), token]);
                &[]
            }
            Block::Congestion { flag } => {
                put(&[flag.into()]);
                &[]
            }
            Block::RelayTagRequest => &[],
            Block::PathChallenge { challenge: bytes }
            | Block::PathResponse { response: bytes }
            | Block::Padding { padding: bytes }
            | Block::Opaque { bytes, .. } => bytes,
        };
        (fields, bytes)
    }
}

/// Whether a type has a block of its own, so that an opaque one cannot stand under it.
fn is_named(kind: u8) -> bool {
    matches!(kind, 0..=6 | 12 | 13 | 15..=21 | 254)
}

/// The address of 4 or 16 bytes, which is all that the library gives.
fn ip_of(bytes: &[u8]) -> IpAddr {
    match <[u8; 4]>::try_from(bytes) {
        Ok(octets) => IpAddr::from(octets),
        Err(_) => {
            let mut octets = [0; 16];
            octets.copy_from_slice(bytes);
            IpAddr::from(octets)
        }
    }
}

fn put_ip(ip: IpAddr, octets: &mut [u8; 16]) -> &[u8] {
    match ip {
        IpAddr::V4(ip) => {
            octets[..4].copy_from_slice(&ip.octets());
            &octets[..4]
        }
        IpAddr::V6(ip) => {
            *octets = ip.octets();
            octets
        }
    }
}

/// The blocks of a payload, each with the place of its type byte.
///
/// ```
/// use strawhub::{blocks, Block, Refusal};
///
/// let payload = [21, 0, 1, 1, 254, 0, 2, 0, 0];
/// let found: Result<Vec<_>, _> = blocks(&payload).collect();
/// assert_eq!(
///     found?,
///     [(0, Block::Congestion { flag: 1 }), (4, Block::Padding { padding: &[0, 0] })]
/// );
///
/// // the same without its last byte
/// let refused = blocks(&payload[..8]).last().unwrap().unwrap_err();
/// assert_eq!((refused.refusal, refused.place), (Refusal::EndsInsideBlock, 4));
/// # Ok::<(), strawhub::RefusedAt>(())
/// ```
pub fn blocks(payload: &[u8]) -> Blocks<'_> {
    Blocks { payload, at: Some(0) }
}

/// What [`blocks`] gives: an iterator that ends with the payload, or with the first refusal. An empty
/// payload is refused (1, at 0).
#[derive(Debug, Clone)]
pub struct Blocks<'a> {
    payload: &'a [u8],
    /// The place of the next block, if there is one.
    at: Option<usize>,
}

impl<'a> Iterator for Blocks<'a> {
    type Item = Result<(usize, Block<'a>), RefusedAt>;

    fn next(&mut self) -> Option<Self::Item> {
        let at = self.at.take()?;
        Some(Block::read(self.payload, at).map(|(block, next)| {
            self.at = (next < self.payload.len()).then_some(next);
            (at, block)
        }))
    }
}

impl core::iter::FusedIterator for Blocks<'_> {}

/// Lists a payload's blocks, all of them good, and gives how many they are; the rest of the list
/// stays. Refuses with 1 to 9, or where there are more than the list holds (10), at the first block
/// that has no entry.
///
/// ```
/// use strawhub::{list_blocks, Entry, Refusal};
///
/// let payload = [0, 0, 4, 0x65, 0x53, 0xf1, 0, 21, 0, 1, 1, 254, 0, 2, 0, 0];
/// let mut list = [Entry::default(); 8];
/// assert_eq!(list_blocks(&payload, &mut list)?, 3);
/// assert_eq!(list[1], Entry { place: 7, kind: 21, size: 1 });
///
/// let refused = list_blocks(&payload, &mut list[..2]).unwrap_err();
/// assert_eq!((refused.refusal, refused.place), (Refusal::ListFull, 11));
/// # Ok::<(), strawhub::RefusedAt>(())
/// ```
pub fn list_blocks(payload: &[u8], list: &mut [Entry]) -> Result<usize, RefusedAt> {
    let outcome = ffi::block_list(payload, list);
    let value = outcome.value as usize;
    match Refusal::check(outcome.number) {
        Ok(()) => Ok(value),
        Err(refusal) => Err(RefusedAt { refusal, place: value }),
    }
}
