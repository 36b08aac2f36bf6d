//! The pieces of I2NP messages, put together.

use crate::{ffi, Refusal, RefusedAt};

/// The bytes of a store's record.
pub const RECORD: usize = 9_352;

/// The bytes of a store's room.
pub const ROOM: usize = 1_048_560;

/// The bytes of a message at most, and so of an assembly buffer that is always enough.
pub const MESSAGE: usize = 65_535;

/// The bytes of all three.
pub const STORAGE: usize = RECORD + ROOM + MESSAGE;

/// The neighbours of a store. Their numbers are 0 to 3.
pub const NEIGHBOURS: u64 = 4;

/// An I2NP message, its bytes a part of what it came in.
#[derive(Debug, Clone, Copy, PartialEq, Eq, Hash)]
pub struct Message<'a> {
    /// Its type.
    pub message_type: u8,

    /// Its id.
    pub message_id: u32,

    /// When it lapses, in seconds of Unix time.
    pub expiration: u32,

    /// Its bytes.
    pub payload: &'a [u8],
}

/// What a block delivers.
#[derive(Debug, Clone, Copy, PartialEq, Eq)]
pub enum Delivered<'a> {
    /// Nothing: a piece was kept, or the block is none that carries a message.
    Nothing,

    /// The whole message that an I2NP block has, as a part of the payload.
    Whole(Message<'a>),

    /// The message that a piece finished, as a part of the assembly buffer.
    Rebuilt(Message<'a>),
}

impl<'a> Delivered<'a> {
    /// The message, whole or rebuilt.
    pub fn message(self) -> Option<Message<'a>> {
        match self {
            Delivered::Nothing => None,
            Delivered::Whole(message) | Delivered::Rebuilt(message) => Some(message),
        }
    }
}

/// All bytes that a [`FragmentHandler`] needs: in itself, for a static, or over a `Vec`, a `Box` or a slice.
///
/// ```
/// use std::sync::Mutex;
/// use strawhub::{FragmentStorage, STORAGE};
///
/// // all zero is empty: this takes no room in the program's file
/// static PIECES: Mutex<FragmentStorage> = Mutex::new(FragmentStorage::new());
///
/// let mut storage = PIECES.lock().unwrap();
/// assert_eq!(storage.handler().first_fragment(20, 7, 9, 100, b"ab"), Ok(None));
/// let mut handler = storage.handler();
/// let letter = handler.follow_on_fragment(7, 1, true, 101, b"cd")?.unwrap();
/// assert_eq!((letter.message_type, letter.expiration, letter.payload), (20, 9, &b"abcd"[..]));
///
/// // on the heap
/// let mut storage = FragmentStorage::over(vec![0; STORAGE])?;
/// assert_eq!(storage.handler().first_fragment(20, 7, 9, 100, b"ab"), Ok(None));
/// # Ok::<(), strawhub::Refusal>(())
/// ```
pub struct FragmentStorage<B = [u8; STORAGE]> {
    bytes: B,
}

impl FragmentStorage {
    /// Storage with no message open and none remembered, for a static. These are 1,123,447 bytes: more than a thread's
    /// stack may have left.
    pub const fn new() -> Self {
        FragmentStorage { bytes: [0; STORAGE] }
    }
}

impl<B: AsMut<[u8]>> FragmentStorage<B> {
    /// Storage over bytes of your own, with no message open and none remembered. Refuses less than [`STORAGE`] of them
    /// (59).
    pub fn over(mut bytes: B) -> Result<Self, Refusal> {
        if bytes.as_mut().len() < STORAGE {
            return Err(Refusal::LentShort);
        }
        let mut storage = FragmentStorage { bytes };
        Refusal::check(ffi::store_new(storage.handler().record).into())?;
        Ok(storage)
    }

    /// A handler that goes on where the last one left.
    pub fn handler(&mut self) -> FragmentHandler<'_> {
        let (record, rest) = self.bytes.as_mut().split_at_mut(RECORD);
        let (room, assembly) = rest.split_at_mut(ROOM);
        FragmentHandler { record, room, assembly }
    }
}

impl Default for FragmentStorage {
    fn default() -> Self {
        Self::new()
    }
}

/// Keeps the pieces of open messages, and gives a message out when its last number is known and every
/// number up to it is held.
///
/// A piece comes with the present second. [`FragmentHandler::sweep`] drops what was opened 30 seconds
/// ago or more.
///
/// **Neighbours.** A handler serves four neighbours, 0 to 3; the daemon decides which peer has which
/// number. Each may always have up to 4 messages open, whatever the others send, and never more than 4: a
/// piece of a fifth is refused with 52. Ids hold within a neighbour, so equal ids from two neighbours are
/// two messages, and all pieces of a message have to come under one number. The calls whose names end in
/// `_from` take the neighbour's number, and refuse one above 3 with 58; the others mean neighbour 0.
///
/// - One handler for each session: call [`first_fragment`], [`follow_on_fragment`] and [`deliver`]. The
///   session then has up to 4 messages open, and 16 remembered.
/// - One handler for four peers: give each a number of its own, and call [`first_fragment_from`],
///   [`follow_on_fragment_from`] and [`deliver_from`]. When a peer is gone, wait for a sweep at least 30
///   seconds after its last piece before another peer gets its number.
///
/// [`first_fragment`]: FragmentHandler::first_fragment
/// [`follow_on_fragment`]: FragmentHandler::follow_on_fragment
/// [`deliver`]: FragmentHandler::deliver
/// [`first_fragment_from`]: FragmentHandler::first_fragment_from
/// [`follow_on_fragment_from`]: FragmentHandler::follow_on_fragment_from
/// [`deliver_from`]: FragmentHandler::deliver_from
///
/// **Late repeats.** The ids of finished messages are remembered, 16 at most of each neighbour. Every piece
/// that this neighbour sends under a remembered id is refused with 57: the far end sends a piece again when
/// an acknowledgement was lost, and the message was delivered already. Drop such a piece, and acknowledge its
/// packet as usual. A sweep forgets what was finished 30 seconds ago or more; where a neighbour has 16
/// remembered, its next finished message pushes out its first finished one. Nothing else forgets an id, so
/// sweep regularly; one sweep serves all neighbours.
///
/// ```
/// use strawhub::{FragmentStorage, Refusal, STORAGE};
///
/// let mut storage = FragmentStorage::over(vec![0; STORAGE])?;
/// let mut handler = storage.handler();
/// handler.first_fragment(20, 7, 9, 100, b"a")?;
/// handler.follow_on_fragment(7, 2, true, 100, b"c")?;
/// // three pieces are not a letter of three: 5 is above the last number
/// assert_eq!(handler.follow_on_fragment(7, 5, false, 100, b"f"), Err(Refusal::PieceConflict));
/// let letter = handler.follow_on_fragment(7, 1, false, 100, b"b")?.unwrap();
/// assert_eq!(letter.payload, b"abc");
///
/// // the acknowledgement was lost, and a piece comes again: it opens nothing, and no letter comes twice
/// let late = handler.follow_on_fragment(7, 1, false, 105, b"b");
/// assert_eq!(late, Err(Refusal::AlreadyFinished));
/// # Ok::<(), Refusal>(())
/// ```
///
/// Two neighbours that use one id:
///
/// ```
/// use strawhub::{FragmentStorage, Refusal, STORAGE};
///
/// let mut storage = FragmentStorage::over(vec![0; STORAGE])?;
/// let mut handler = storage.handler();
/// handler.first_fragment_from(0, 20, 7, 9, 100, b"a")?;
/// handler.first_fragment_from(1, 20, 7, 9, 100, b"A")?;
/// let letter = handler.follow_on_fragment_from(0, 7, 1, true, 100, b"b")?.unwrap();
/// assert_eq!(letter.payload, b"ab");
/// let letter = handler.follow_on_fragment_from(1, 7, 1, true, 100, b"B")?.unwrap();
/// assert_eq!(letter.payload, b"AB");
///
/// // a noisy neighbour meets 52 at its fifth message, and nobody else does
/// for id in 0..4 {
///     handler.first_fragment_from(0, 20, id, 9, 100, b"a")?;
/// }
/// assert_eq!(handler.first_fragment_from(0, 20, 4, 9, 100, b"a"), Err(Refusal::StoreFull));
/// assert_eq!(handler.first_fragment_from(1, 20, 4, 9, 100, b"a"), Ok(None));
///
/// // there is no neighbour 4; nor is 256 cut to a byte
/// assert_eq!(handler.first_fragment_from(4, 20, 5, 9, 100, b"a"), Err(Refusal::NeighbourHigh));
/// assert_eq!(handler.first_fragment_from(256, 20, 5, 9, 100, b"a"), Err(Refusal::NeighbourHigh));
/// # Ok::<(), Refusal>(())
/// ```
pub struct FragmentHandler<'a> {
    record: &'a mut [u8],
    room: &'a mut [u8],
    assembly: &'a mut [u8],
}

impl<'a> FragmentHandler<'a> {
    /// An empty handler over lent bytes, with no message open and none remembered: a record of [`RECORD`],
    /// a room of [`ROOM`], and an assembly buffer, which is always long enough with [`MESSAGE`]. Refuses a
    /// short record or room (59).
    ///
    /// ```
    /// use strawhub::{FragmentHandler, Refusal, MESSAGE, RECORD, ROOM};
    ///
    /// let (mut record, mut room, mut assembly) = (vec![0; RECORD], vec![0; ROOM], vec![0; MESSAGE]);
    /// let mut handler = FragmentHandler::new(&mut record, &mut room, &mut assembly)?;
    /// assert_eq!(handler.first_fragment(20, 7, 9, 100, b"ab"), Ok(None));
    ///
    /// // the bytes hold the message, and another handler can go on with them
    /// let mut handler = FragmentHandler::resume(&mut record, &mut room, &mut assembly)?;
    /// assert_eq!(handler.first_fragment(20, 7, 9, 100, b"ab"), Err(Refusal::PieceAgain));
    /// # Ok::<(), Refusal>(())
    /// ```
    pub fn new(record: &'a mut [u8], room: &'a mut [u8], assembly: &'a mut [u8]) -> Result<Self, Refusal> {
        let handler = Self::resume(record, room, assembly)?;
        Refusal::check(ffi::store_new(handler.record).into())?;
        Ok(handler)
    }

    /// A handler over lent bytes that go on as the last handler left them. Refuses a short record or
    /// room (59). Over a record that no handler left, a piece is refused with 59 too where the record
    /// names bytes outside their slot's 65,535 for a piece that would be compared or joined.
    pub fn resume(record: &'a mut [u8], room: &'a mut [u8], assembly: &'a mut [u8]) -> Result<Self, Refusal> {
        if record.len() < RECORD || room.len() < ROOM {
            return Err(Refusal::LentShort);
        }
        Ok(FragmentHandler { record, room, assembly })
    }

    /// A first piece came, from neighbour 0. Gives the message if no other was missing.
    ///
    /// Refuses with the first that holds of 50, 57, 54, 55, 52, 53, 56.
    pub fn first_fragment(
        &mut self,
        message_type: u8,
        message_id: u32,
        expiration: u32,
        second: u64,
        payload: &[u8],
    ) -> Result<Option<Message<'_>>, Refusal> {
        self.first_fragment_from(0, message_type, message_id, expiration, second, payload)
    }

    /// A first piece came from a neighbour, 0 to 3. Gives the message if no other was missing.
    ///
    /// Refuses with the first that holds of 58, 50, 57, 54, 55, 52, 53, 56.
    pub fn first_fragment_from(
        &mut self,
        neighbour: u64,
        message_type: u8,
        message_id: u32,
        expiration: u32,
        second: u64,
        payload: &[u8],
    ) -> Result<Option<Message<'_>>, Refusal> {
        let reply = ffi::store_first(self.store(), neighbour, message_id, message_type, expiration, second, payload);
        self.finished(message_id, reply)
    }

    /// A follow-on piece came, from neighbour 0. Gives the message if no other was missing.
    ///
    /// Refuses with the first that holds of 50, 51, 57, 54, 55, 52, 53, 56.
    pub fn follow_on_fragment(
        &mut self,
        message_id: u32,
        sequence: u8,
        last: bool,
        second: u64,
        payload: &[u8],
    ) -> Result<Option<Message<'_>>, Refusal> {
        self.follow_on_fragment_from(0, message_id, sequence, last, second, payload)
    }

    /// A follow-on piece came from a neighbour, 0 to 3. Gives the message if no other was missing.
    ///
    /// Refuses with the first that holds of 58, 50, 51, 57, 54, 55, 52, 53, 56.
    pub fn follow_on_fragment_from(
        &mut self,
        neighbour: u64,
        message_id: u32,
        sequence: u8,
        last: bool,
        second: u64,
        payload: &[u8],
    ) -> Result<Option<Message<'_>>, Refusal> {
        let reply = ffi::store_follow_on(self.store(), neighbour, message_id, sequence, last, second, payload);
        self.finished(message_id, reply)
    }

    /// Drops exactly the open messages, of every neighbour, whose opening piece came 30 seconds before this
    /// second or earlier, and forgets exactly the finished ones whose finishing piece did.
    ///
    /// ```
    /// use strawhub::{FragmentStorage, Refusal, STORAGE};
    ///
    /// let mut storage = FragmentStorage::over(vec![0; STORAGE])?;
    /// let mut handler = storage.handler();
    /// handler.first_fragment(20, 7, 9, 100, b"ab")?;
    /// assert!(handler.follow_on_fragment(7, 1, true, 110, b"cd")?.is_some());
    ///
    /// // finished at 110: remembered by a sweep at 139, forgotten by one at 140
    /// handler.sweep(139);
    /// assert_eq!(handler.first_fragment(20, 7, 9, 139, b"ab"), Err(Refusal::AlreadyFinished));
    /// handler.sweep(140);
    /// assert_eq!(handler.first_fragment(20, 7, 9, 140, b"ab"), Ok(None));
    /// # Ok::<(), Refusal>(())
    /// ```
    pub fn sweep(&mut self, second: u64) {
        ffi::store_sweep(self.record, second);
    }

    /// What the block at a place of a payload delivers; its sender is neighbour 0. Refuses as
    /// [`Block::read`] does, or as the store refuses the piece that the block has; the place of both is the
    /// block's. A whole message passes no store: its id is not remembered, and it is never refused with 57.
    ///
    /// [`Block::read`]: crate::Block::read
    ///
    /// ```
    /// use strawhub::{Block, Delivered, FragmentStorage, Message, STORAGE};
    ///
    /// let message = Message { message_type: 11, message_id: 7, expiration: 9, payload: b"letter" };
    /// let mut payload = [0; 32];
    /// let length = Block::I2Np { message }.write(&mut payload)?;
    ///
    /// let mut storage = FragmentStorage::over(vec![0; STORAGE])?;
    /// let mut handler = storage.handler();
    /// let delivered = handler.deliver(&payload[..length], 0, 100)?;
    /// assert_eq!(delivered, Delivered::Whole(message));
    /// # Ok::<(), strawhub::Refusal>(())
    /// ```
    pub fn deliver<'m>(&'m mut self, payload: &'m [u8], at: usize, second: u64) -> Result<Delivered<'m>, RefusedAt> {
        self.deliver_from(0, payload, at, second)
    }

    /// What the block at a place of a neighbour's payload delivers, as [`FragmentHandler::deliver`] does for
    /// neighbour 0. A piece of a neighbour above 3 is refused with 58, after the refusals of the block itself;
    /// a whole message is delivered whatever the number is.
    ///
    /// ```
    /// use strawhub::{Block, Delivered, FragmentStorage, Refusal, STORAGE};
    ///
    /// // the last of two pieces, then the first
    /// let mut payload = [0; 32];
    /// let last = Block::FollowOnFragment { last: true, message_id: 7, fragment_num: 1, fragment: b"cd" };
    /// let place = last.write(&mut payload)?;
    /// let first = Block::FirstFragment { message_type: 20, message_id: 7, expiration: 9, fragment: b"ab" };
    /// let length = place + first.write(&mut payload[place..])?;
    ///
    /// let mut storage = FragmentStorage::over(vec![0; STORAGE])?;
    /// let mut handler = storage.handler();
    /// for neighbour in 0..4 {
    ///     assert_eq!(handler.deliver_from(neighbour, &payload[..length], 0, 100)?, Delivered::Nothing);
    ///     let letter = handler.deliver_from(neighbour, &payload[..length], place, 100)?.message().unwrap();
    ///     assert_eq!(letter.payload, b"abcd");
    /// }
    /// let refused = handler.deliver_from(4, &payload[..length], place, 100).unwrap_err();
    /// assert_eq!((refused.refusal, refused.place), (Refusal::NeighbourHigh, place));
    /// # Ok::<(), Refusal>(())
    /// ```
    pub fn deliver_from<'m>(
        &'m mut self,
        neighbour: u64,
        payload: &'m [u8],
        at: usize,
        second: u64,
    ) -> Result<Delivered<'m>, RefusedAt> {
        let mut told = [0; 6];
        let outcome = ffi::block_deliver(payload, at, self.store(), neighbour, second, &mut told);
        if outcome.number != 0 && outcome.number != FINISHED {
            let refusal = Refusal::of(outcome.number);
            let place = outcome.value as usize;
            return Err(RefusedAt { refusal, place });
        }
        let [stands, message_type, message_id, expiration, start, length] = told;
        let message = |bytes: &'m [u8]| Message {
            message_type: message_type as u8,
            message_id: message_id as u32,
            expiration: expiration as u32,
            payload: &bytes[start as usize..][..length as usize],
        };
        Ok(match stands {
            IN_PAYLOAD => Delivered::Whole(message(payload)),
            IN_ASSEMBLY => Delivered::Rebuilt(message(self.assembly)),
            _ => Delivered::Nothing,
        })
    }

    fn store(&mut self) -> ffi::Store<'_> {
        ffi::Store { record: self.record, room: self.room, out: self.assembly }
    }

    /// A reply as the message that it finished, none, or the refusal.
    fn finished(&self, message_id: u32, reply: ffi::Reply) -> Result<Option<Message<'_>>, Refusal> {
        if u64::from(reply.number) != FINISHED {
            return Refusal::check(reply.number.into()).map(|()| None);
        }
        Ok(Some(Message {
            message_type: reply.kind,
            message_id,
            expiration: reply.expires,
            payload: &self.assembly[..reply.length],
        }))
    }
}

/// The answer that a message is finished.
const FINISHED: u64 = 60;

/// Where a delivered message stands.
const IN_PAYLOAD: u64 = 1;
const IN_ASSEMBLY: u64 = 2;
