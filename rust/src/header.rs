//! A packet's header, unmasked and read, written and masked.

use crate::{ffi, Refusal};
use core::ops::Deref;

/// The shortest packet whose header can be unmasked.
const PKT_MIN_SIZE: usize = 40;

/// The first block of the keystream that masks a header.
const FIRST_BLOCK: u32 = 1;

/// A packet's type.
///
/// ```
/// use strawhub::MessageType;
///
/// assert_eq!(*MessageType::Data, 6);
/// assert_eq!(MessageType::try_from(9), Ok(MessageType::Retry));
/// assert!(MessageType::try_from(3).is_err());
/// ```
#[derive(Debug, Clone, Copy, PartialEq, Eq, Hash)]
#[repr(u8)]
pub enum MessageType {
    /// 0.
    SessionRequest = 0,
    /// 1.
    SessionCreated = 1,
    /// 2.
    SessionConfirmed = 2,
    /// 6.
    Data = 6,
    /// 7.
    PeerTest = 7,
    /// 9.
    Retry = 9,
    /// 10.
    TokenRequest = 10,
    /// 11.
    HolePunch = 11,
}

impl Deref for MessageType {
    type Target = u8;

    fn deref(&self) -> &u8 {
        match self {
            MessageType::SessionRequest => &0,
            MessageType::SessionCreated => &1,
            MessageType::SessionConfirmed => &2,
            MessageType::Data => &6,
            MessageType::PeerTest => &7,
            MessageType::Retry => &9,
            MessageType::TokenRequest => &10,
            MessageType::HolePunch => &11,
        }
    }
}

impl TryFrom<u8> for MessageType {
    type Error = Refusal;

    fn try_from(number: u8) -> Result<Self, Refusal> {
        Ok(match number {
            0 => MessageType::SessionRequest,
            1 => MessageType::SessionCreated,
            2 => MessageType::SessionConfirmed,
            6 => MessageType::Data,
            7 => MessageType::PeerTest,
            9 => MessageType::Retry,
            10 => MessageType::TokenRequest,
            11 => MessageType::HolePunch,
            _ => return Err(Refusal::Type),
        })
    }
}

/// The protocol's version.
#[derive(Debug, Clone, Copy, PartialEq, Eq, Hash)]
#[repr(u8)]
pub enum ProtocolVersion {
    /// Version 2.
    V2 = 2,
    /// Version 3.
    V3 = 3,
    /// Version 4.
    V4 = 4,
}

impl TryFrom<u8> for ProtocolVersion {
    type Error = Refusal;

    fn try_from(number: u8) -> Result<Self, Refusal> {
        Ok(match number {
            2 => ProtocolVersion::V2,
            3 => ProtocolVersion::V3,
            4 => ProtocolVersion::V4,
            _ => return Err(Refusal::Version),
        })
    }
}

/// A header's fields, by the packet's type.
///
/// - `dst_id`, `src_id`: the ids of destination and source;
/// - `pkt_num`: the packet number;
/// - `version`, `net_id`: the protocol's version, the network's id;
/// - `token`: the token, its first byte on the wire the lowest;
/// - `ephemeral_key`: the 32-byte key that follows the header;
/// - `fragment`, `num_fragments`: which fragment this is, of how many;
/// - `immediate_ack`: whether it asks to be acknowledged at once.
#[allow(missing_docs)] // the list above has the fields of every variant
#[derive(Debug, Clone, Copy, PartialEq, Eq, Hash)]
pub enum HeaderKind {
    /// Asks for a session; a key follows the header.
    SessionRequest {
        dst_id: u64,
        pkt_num: u32,
        version: ProtocolVersion,
        net_id: u8,
        src_id: u64,
        token: u64,
        ephemeral_key: [u8; 32],
    },

    /// Answers that; a key follows the header.
    SessionCreated {
        dst_id: u64,
        pkt_num: u32,
        version: ProtocolVersion,
        net_id: u8,
        src_id: u64,
        token: u64,
        ephemeral_key: [u8; 32],
    },

    /// Confirms the session. The packet number is 0.
    SessionConfirmed { dst_id: u64, pkt_num: u32, fragment: u8, num_fragments: u8 },

    /// A session's packet.
    Data { dst_id: u64, pkt_num: u32, immediate_ack: bool },

    /// Part of a test of reachability.
    PeerTest { dst_id: u64, pkt_num: u32, version: ProtocolVersion, net_id: u8, src_id: u64, token: u64 },

    /// Gives a token.
    Retry { dst_id: u64, pkt_num: u32, version: ProtocolVersion, net_id: u8, src_id: u64, token: u64 },

    /// Asks for a token.
    TokenRequest { dst_id: u64, pkt_num: u32, version: ProtocolVersion, net_id: u8, src_id: u64, token: u64 },

    /// Opens the way for a session.
    HolePunch { dst_id: u64, pkt_num: u32, version: ProtocolVersion, net_id: u8, src_id: u64, token: u64 },
}

impl HeaderKind {
    /// The packet's type.
    pub fn message_type(&self) -> MessageType {
        match self {
            HeaderKind::SessionRequest { .. } => MessageType::SessionRequest,
            HeaderKind::SessionCreated { .. } => MessageType::SessionCreated,
            HeaderKind::SessionConfirmed { .. } => MessageType::SessionConfirmed,
            HeaderKind::Data { .. } => MessageType::Data,
            HeaderKind::PeerTest { .. } => MessageType::PeerTest,
            HeaderKind::Retry { .. } => MessageType::Retry,
            HeaderKind::TokenRequest { .. } => MessageType::TokenRequest,
            HeaderKind::HolePunch { .. } => MessageType::HolePunch,
        }
    }

    /// The destination's id.
    pub fn dst_id(&self) -> u64 {
        self.fields().destination
    }

    /// The packet number.
    pub fn pkt_num(&self) -> u32 {
        self.fields().number
    }

    /// Writes and masks the header at the start of a packet whose other bytes stand there already: the
    /// masks' nonces are the packet's last 24 bytes.
    ///
    /// Refuses a SessionConfirmed with another number than 0 (24) or a nibble above 15 (25), and a
    /// packet of less than 40, 56 or 88 bytes for a header of 16, 32 or 64 (20).
    ///
    /// ```
    /// use strawhub::{HeaderKind, HeaderReader};
    ///
    /// let (k1, k2) = ([1; 32], [2; 32]);
    /// let header = HeaderKind::Data { dst_id: 77, pkt_num: 5, immediate_ack: true };
    /// let mut packet = [0xaa; 60];
    /// header.write(k1, k2, &mut packet)?;
    ///
    /// let mut reader = HeaderReader::new(k1, &mut packet)?;
    /// assert_eq!(reader.dst_id(), 77); // the session, which has the second key
    /// assert_eq!(reader.parse(k2)?, header);
    /// # Ok::<(), strawhub::Refusal>(())
    /// ```
    pub fn write(&self, k_header_1: [u8; 32], k_header_2: [u8; 32], pkt: &mut [u8]) -> Result<(), Refusal> {
        let before = self.place_key(pkt);
        let number = ffi::header_write(pkt, &k_header_1, &k_header_2, &self.fields());
        let answer = Refusal::check(number.into());
        if let (Err(_), Some(key)) = (answer, before) {
            pkt[32..64].copy_from_slice(&key);
        }
        answer
    }

    /// Puts the key where the library expects it, and gives what stood there.
    fn place_key(&self, pkt: &mut [u8]) -> Option<[u8; 32]> {
        let (HeaderKind::SessionRequest { ephemeral_key, .. } | HeaderKind::SessionCreated { ephemeral_key, .. }) =
            self
        else {
            return None;
        };
        let place: &mut [u8; 32] = pkt.get_mut(32..64)?.try_into().ok()?;
        Some(core::mem::replace(place, *ephemeral_key))
    }

    /// The fields as the library takes them.
    fn fields(&self) -> ffi::Fields {
        let kind = *self.message_type();
        match *self {
            HeaderKind::SessionConfirmed { dst_id, pkt_num, fragment, num_fragments } => ffi::Fields {
                kind,
                destination: dst_id,
                number: pkt_num,
                fragment,
                count: num_fragments,
                ..Default::default()
            },
            HeaderKind::Data { dst_id, pkt_num, immediate_ack } => ffi::Fields {
                kind,
                destination: dst_id,
                number: pkt_num,
                immediate: immediate_ack,
                ..Default::default()
            },
            HeaderKind::SessionRequest { dst_id, pkt_num, version, net_id, src_id, token, .. }
            | HeaderKind::SessionCreated { dst_id, pkt_num, version, net_id, src_id, token, .. }
            | HeaderKind::PeerTest { dst_id, pkt_num, version, net_id, src_id, token }
            | HeaderKind::Retry { dst_id, pkt_num, version, net_id, src_id, token }
            | HeaderKind::TokenRequest { dst_id, pkt_num, version, net_id, src_id, token }
            | HeaderKind::HolePunch { dst_id, pkt_num, version, net_id, src_id, token } => ffi::Fields {
                kind,
                destination: dst_id,
                number: pkt_num,
                version: version as u8,
                network: net_id,
                source: src_id,
                token,
                ..Default::default()
            },
        }
    }

    /// A header by the library's numbers, the key taken from the unmasked packet.
    fn from_numbers(numbers: [u64; 11], pkt: &[u8]) -> Result<Self, Refusal> {
        let [kind, version, net_id, fragment, count, immediate, number, dst_id, src_id, token, key] = numbers;
        let (pkt_num, net_id) = (number as u32, net_id as u8);
        let message_type = MessageType::try_from(kind as u8)?;
        if let MessageType::SessionConfirmed = message_type {
            let (fragment, num_fragments) = (fragment as u8, count as u8);
            return Ok(HeaderKind::SessionConfirmed { dst_id, pkt_num, fragment, num_fragments });
        }
        if let MessageType::Data = message_type {
            return Ok(HeaderKind::Data { dst_id, pkt_num, immediate_ack: immediate != 0 });
        }
        let version = ProtocolVersion::try_from(version as u8)?;
        let mut ephemeral_key = [0; 32];
        if key != 0 {
            ephemeral_key.copy_from_slice(&pkt[key as usize..][..32]);
        }
        Ok(match message_type {
            MessageType::SessionRequest => {
                HeaderKind::SessionRequest { dst_id, pkt_num, version, net_id, src_id, token, ephemeral_key }
            }
            MessageType::SessionCreated => {
                HeaderKind::SessionCreated { dst_id, pkt_num, version, net_id, src_id, token, ephemeral_key }
            }
            MessageType::PeerTest => HeaderKind::PeerTest { dst_id, pkt_num, version, net_id, src_id, token },
            MessageType::Retry => HeaderKind::Retry { dst_id, pkt_num, version, net_id, src_id, token },
            MessageType::TokenRequest => HeaderKind::TokenRequest { dst_id, pkt_num, version, net_id, src_id, token },
            _ => HeaderKind::HolePunch { dst_id, pkt_num, version, net_id, src_id, token },
        })
    }
}

/// A packet, and the first key of its header.
///
/// ```
/// use strawhub::{HeaderKind, HeaderReader, ProtocolVersion};
///
/// let (intro, other) = ([7; 32], [8; 32]);
/// let header = HeaderKind::TokenRequest {
///     dst_id: 1, pkt_num: 2, version: ProtocolVersion::V2, net_id: 2, src_id: 3, token: 0,
/// };
/// let mut packet = [0; 56];
/// header.write(intro, intro, &mut packet)?;
///
/// let mut reader = HeaderReader::new(other, &mut packet)?;
/// assert!(reader.parse(other).is_err()); // and the packet is as it came
/// assert_eq!(reader.reset_key(intro).parse(intro)?, header);
/// # Ok::<(), strawhub::Refusal>(())
/// ```
pub struct HeaderReader<'a> {
    k_header_1: [u8; 32],
    pkt: &'a mut [u8],
}

impl<'a> HeaderReader<'a> {
    /// A reader of a packet. Refuses one of less than 40 bytes (20).
    pub fn new(k_header_1: [u8; 32], pkt: &'a mut [u8]) -> Result<Self, Refusal> {
        if pkt.len() < PKT_MIN_SIZE {
            return Err(Refusal::PacketShort);
        }
        Ok(HeaderReader { k_header_1, pkt })
    }

    /// The destination's id, which needs the first key alone. The packet stays as it is, so this
    /// is the masked packet's, before [`HeaderReader::parse`].
    pub fn dst_id(&self) -> u64 {
        let mut nonce = [0; 12];
        nonce.copy_from_slice(&self.pkt[self.pkt.len() - 24..][..12]);
        let stream = keystream(&self.k_header_1, FIRST_BLOCK, &nonce);
        let mut id = [0; 8];
        for (i, byte) in id.iter_mut().enumerate() {
            *byte = self.pkt[i] ^ stream[i];
        }
        u64::from_le_bytes(id)
    }

    /// Another first key, to try the packet with.
    pub fn reset_key(&mut self, k_header_1: [u8; 32]) -> &mut Self {
        self.k_header_1 = k_header_1;
        self
    }

    /// Unmasks the header in place and reads it. The masks are then off: a second call would take the
    /// plain header for a masked one.
    ///
    /// Refuses with 21 to 24, and then the packet is as it came and other keys can be tried.
    pub fn parse(&mut self, k_header_2: [u8; 32]) -> Result<HeaderKind, Refusal> {
        let mut numbers = [0; 11];
        let number = ffi::header_read(self.pkt, &self.k_header_1, &k_header_2, &mut numbers);
        Refusal::check(number.into())?;
        HeaderKind::from_numbers(numbers, self.pkt)
    }
}

/// 64 bytes of the ChaCha20 keystream of RFC 8439.
///
/// ```
/// // RFC 8439, A.1, vector 1
/// let stream = strawhub::keystream(&[0; 32], 0, &[0; 12]);
/// assert_eq!(stream[..4], [0x76, 0xb8, 0xe0, 0xad]);
/// ```
pub fn keystream(key: &[u8; 32], counter: u32, nonce: &[u8; 12]) -> [u8; 64] {
    ffi::keystream(key, counter, nonce)
}
