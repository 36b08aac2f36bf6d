//! Which packet numbers came, and the acknowledgement of them.

use crate::{ffi, Block, Refusal};
use core::fmt;

/// The bytes of a tracker.
const TRACKER: usize = 259;

/// The longest pairs of a report.
const PAIRS: usize = 254;

/// The packet numbers that came, of the newest 255.
///
/// ```
/// use strawhub::{RemoteAckManager, Refusal};
///
/// let mut acks = RemoteAckManager::new();
/// assert_eq!(acks.ack_info(), Err(Refusal::NothingSeen));
///
/// acks.register_pkt(4)?;
/// acks.register_pkt(2)?;
/// assert_eq!(acks.register_pkt(2), Err(Refusal::NumberAgain));
/// assert!(acks.is_duplicate(4) && !acks.is_duplicate(3));
///
/// // 4; then 3 missing, 2 received, 1 missing, 0 received (the SessionConfirmed)
/// let info = acks.ack_info()?;
/// assert_eq!((info.highest_seen, info.num_acks), (4, 0));
/// assert!(info.ranges().iter().eq([(1, 1), (1, 1)]));
/// # Ok::<(), Refusal>(())
/// ```
#[derive(Clone, PartialEq, Eq)]
pub struct RemoteAckManager {
    tracker: [u8; TRACKER],
}

impl RemoteAckManager {
    /// One that has seen nothing.
    pub const fn new() -> Self {
        RemoteAckManager { tracker: [0; TRACKER] }
    }

    /// A packet came, and its payload was authenticated. The first one that is taken counts number 0,
    /// the SessionConfirmed, as received too.
    ///
    /// Not before it was authenticated: a forged packet would take the number, and the true one would be
    /// refused with 43. It would never be sent again, since its number is acknowledged.
    ///
    /// Refuses a number that is more than 255 above the highest (40), below the window (42) or
    /// received already (43).
    pub fn register_pkt(&mut self, pkt_num: u32) -> Result<(), Refusal> {
        Refusal::check(ffi::tracker_register(&mut self.tracker, pkt_num).into())
    }

    /// Whether a number is in the window and was received.
    pub fn is_duplicate(&self, pkt_num: u32) -> bool {
        ffi::tracker_duplicate(&self.tracker, pkt_num) == 1
    }

    /// The acknowledgement. Asking changes nothing. Refuses before any number came (41).
    pub fn ack_info(&self) -> Result<AckInfo, Refusal> {
        let mut out = [0; 3];
        let mut pairs = [0; PAIRS];
        Refusal::check(ffi::tracker_report(&self.tracker, &mut out, &mut pairs).into())?;
        let [highest_seen, num_acks, pairs_len] = out;
        Ok(AckInfo { highest_seen: highest_seen as u32, num_acks: num_acks as u8, pairs, pairs_len: pairs_len as u8 })
    }

    /// Writes the acknowledgement as an Ack block to the start of a room, and gives its length. 262
    /// bytes are always enough. Refuses before any number came (41), or where the room is short (30).
    ///
    /// ```
    /// use strawhub::RemoteAckManager;
    ///
    /// let mut acks = RemoteAckManager::new();
    /// acks.register_pkt(5)?;
    /// let mut room = [0; 262];
    /// let length = acks.write_ack(&mut room)?;
    /// assert_eq!(room[..length], [12, 0, 7, 0, 0, 0, 5, 0, 4, 1]);
    /// # Ok::<(), strawhub::Refusal>(())
    /// ```
    pub fn write_ack(&self, room: &mut [u8]) -> Result<usize, Refusal> {
        let outcome = ffi::tracker_ack_block(&self.tracker, room);
        Refusal::check(outcome.number)?;
        Ok(outcome.value as usize)
    }
}

impl Default for RemoteAckManager {
    fn default() -> Self {
        Self::new()
    }
}

impl fmt::Debug for RemoteAckManager {
    fn fmt(&self, f: &mut fmt::Formatter<'_>) -> fmt::Result {
        match self.ack_info() {
            Ok(info) => f.debug_tuple("RemoteAckManager").field(&info).finish(),
            Err(_) => f.write_str("RemoteAckManager(nothing seen)"),
        }
    }
}

/// An acknowledgement.
#[derive(Clone, Copy)]
pub struct AckInfo {
    /// The highest number that came.
    pub highest_seen: u32,

    /// How many numbers directly below it were received.
    pub num_acks: u8,

    pairs: [u8; PAIRS],
    pairs_len: u8,
}

impl AckInfo {
    /// The runs below those: missing, then received, downward to the window's end.
    pub fn ranges(&self) -> Ranges<'_> {
        Ranges::new(&self.pairs[..usize::from(self.pairs_len)])
    }

    /// The acknowledgement as a block.
    pub fn block(&self) -> Block<'_> {
        Block::Ack { ack_through: self.highest_seen, num_acks: self.num_acks, ranges: self.ranges() }
    }

    /// The numbers that it names, as [`expand`] gives them. A list of 255 is always enough.
    pub fn expand(&self, list: &mut [u32]) -> Result<usize, Refusal> {
        expand(self.highest_seen, self.num_acks, self.ranges(), list)
    }
}

impl PartialEq for AckInfo {
    fn eq(&self, other: &Self) -> bool {
        self.block() == other.block()
    }
}

impl Eq for AckInfo {}

impl fmt::Debug for AckInfo {
    fn fmt(&self, f: &mut fmt::Formatter<'_>) -> fmt::Result {
        f.debug_struct("AckInfo")
            .field("highest_seen", &self.highest_seen)
            .field("num_acks", &self.num_acks)
            .field("ranges", &self.ranges())
            .finish()
    }
}

/// Runs of numbers as an Ack block has them: bytes in pairs, how many are missing and then how many
/// were received, going down.
///
/// ```
/// use strawhub::Ranges;
///
/// let ranges = Ranges::new(&[4, 1, 2, 0]);
/// assert_eq!(ranges.len(), 2);
/// for (nack, ack) in ranges {
///     assert!(nack > ack);
/// }
/// ```
#[derive(Clone, Copy, PartialEq, Eq, Hash, Default)]
pub struct Ranges<'a> {
    bytes: &'a [u8],
}

impl<'a> Ranges<'a> {
    /// Pairs of bytes. An odd last byte is no pair: it is passed over here, and a block that has it is
    /// refused when it is written (32).
    pub const fn new(bytes: &'a [u8]) -> Self {
        Ranges { bytes }
    }

    /// The bytes.
    pub const fn as_bytes(&self) -> &'a [u8] {
        self.bytes
    }

    /// How many pairs there are.
    pub const fn len(&self) -> usize {
        self.bytes.len() / 2
    }

    /// Whether there is no pair.
    pub const fn is_empty(&self) -> bool {
        self.len() == 0
    }

    /// The pairs: missing, received.
    pub fn iter(&self) -> impl Iterator<Item = (u8, u8)> + 'a {
        self.into_iter()
    }
}

impl<'a> IntoIterator for Ranges<'a> {
    type Item = (u8, u8);
    type IntoIter = core::iter::Map<core::slice::ChunksExact<'a, u8>, fn(&'a [u8]) -> (u8, u8)>;

    fn into_iter(self) -> Self::IntoIter {
        self.bytes.chunks_exact(2).map(|pair| (pair[0], pair[1]))
    }
}

impl fmt::Debug for Ranges<'_> {
    fn fmt(&self, f: &mut fmt::Formatter<'_>) -> fmt::Result {
        f.debug_list().entries(*self).finish()
    }
}

/// The numbers that an acknowledgement names, falling, to the start of a list whose rest stays; and
/// how many they are. Refuses one that goes below 0 (44), or has more numbers than the list holds (46).
///
/// ```
/// use strawhub::{expand, Block};
///
/// let payload = [0x0c, 0, 7, 0, 0, 0, 0x0a, 2, 1, 3];
/// let (Block::Ack { ack_through, num_acks, ranges }, _) = Block::read(&payload, 0)? else {
///     unreachable!()
/// };
/// let mut list = [0; 255];
/// let count = expand(ack_through, num_acks, ranges, &mut list)?;
/// assert_eq!(list[..count], [10, 9, 8, 6, 5, 4]);
/// # Ok::<(), Box<dyn std::error::Error>>(())
/// ```
pub fn expand(ack_through: u32, num_acks: u8, ranges: Ranges<'_>, list: &mut [u32]) -> Result<usize, Refusal> {
    let expanded = ffi::ack_expand(ack_through, num_acks, ranges.as_bytes(), list);
    Refusal::check(expanded.number.into())?;
    Ok(expanded.count)
}
