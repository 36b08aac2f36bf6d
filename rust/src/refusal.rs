//! Why a call refused: document 01's numbers, each with a name and a sentence.

use core::error::Error;
use core::fmt;

/// One line for each refusal: its name, its number and its sentence.
macro_rules! refusals {
    ($($name:ident = $number:literal, $sentence:literal;)*) => {
        /// Why a call refused. A refusal changed no state and no lent byte.
        ///
        /// ```
        /// use strawhub::Refusal;
        ///
        /// assert_eq!(Refusal::PieceConflict.number(), 55);
        /// assert_eq!(Refusal::from_number(10), Some(Refusal::ListFull));
        /// assert_eq!(Refusal::from_number(60), None); // a finished message is no refusal
        /// assert_eq!(Refusal::NothingSeen.to_string(), "no packet number was registered yet");
        /// ```
        #[derive(Debug, Clone, Copy, PartialEq, Eq, Hash)]
        #[repr(u8)]
        pub enum Refusal {
            $(#[doc = concat!(stringify!($number), ": ", $sentence, ".")] $name = $number,)*
        }

        impl Refusal {
            /// Every refusal, by number.
            pub const ALL: &'static [Refusal] = &[$(Refusal::$name,)*];

            /// The refusal with a number of document 01.
            pub const fn from_number(number: u64) -> Option<Refusal> {
                match number {
                    $($number => Some(Refusal::$name),)*
                    _ => None,
                }
            }

            /// The refusal in plain words.
            pub const fn sentence(self) -> &'static str {
                match self {
                    $(Refusal::$name => $sentence,)*
                }
            }
        }
    };
}

refusals! {
    EndsInsideBlock = 1, "the bytes end inside a block or before one";
    RouterInfoSize = 2, "a RouterInfo block has a size of 2 or less";
    I2npType = 3, "the I2NP message type is not a listed one";
    FirstFragmentSize = 4, "a first fragment has a size of 9 or less";
    FirstFragmentBytes = 5, "a first fragment's bytes are missing";
    FollowOnSize = 6, "a follow-on fragment has a size of 5 or less";
    FollowOnBytes = 7, "a follow-on fragment's bytes are missing";
    AddressSize = 8, "an address has a size other than 6 or 18";
    I2npSize = 9, "an I2NP block has a size below 9";
    ListFull = 10, "every block is good, but there are more than the list holds";
    PacketShort = 20, "the packet is too short for its header to be unmasked or written";
    Type = 21, "the packet type is unknown";
    Version = 22, "the protocol version is not 2, 3 or 4";
    KeyMissing = 23, "a SessionRequest or SessionCreated packet is shorter than 64 bytes";
    ConfirmedNumber = 24, "a SessionConfirmed packet has a number other than 0";
    Nibble = 25, "a fragment number or count is above 15";
    RoomShort = 30, "the block is longer than the room for it";
    BodyLong = 31, "the block's body is longer than 65,535 bytes";
    BlockFaulty = 32, "no reader would take the block as it is";
    NumberHigh = 40, "the packet number is more than 255 above the highest";
    NothingSeen = 41, "no packet number was registered yet";
    NumberLow = 42, "the packet number is below the window of the newest 255";
    NumberAgain = 43, "the packet number was received already";
    BelowZero = 44, "the acknowledgement goes below packet number 0";
    ExpansionLong = 46, "the acknowledgement names more numbers than the list holds";
    PieceLength = 50, "a piece is empty or longer than 1,500 bytes";
    PieceNumber = 51, "a follow-on piece has the number 0 or one above 127";
    StoreFull = 52, "this neighbour has 4 messages open and this is a piece of another";
    MessageLong = 53, "the message would be longer than 65,535 bytes";
    PieceAgain = 54, "the piece is held already and repeats it exactly";
    PieceConflict = 55, "the piece contradicts the pieces that are held";
    BufferShort = 56, "the message would be finished, but the assembly buffer is too short";
    AlreadyFinished = 57, "the message was finished already and its id is still remembered";
    NeighbourHigh = 58, "the neighbour number is above 3";
    LentShort = 59, "the lent room or record is too short, or the record names bytes outside the room";
    SenderFull = 70, "256 packets are outstanding";
    NumbersUsedUp = 71, "the last packet number was given out";
    NeverGivenOut = 72, "the acknowledgement names a packet number that was never given out";
    NotOutstanding = 73, "no packet is outstanding under the number that is to be sent again";
}

impl Refusal {
    /// Document 01's number.
    pub const fn number(self) -> u8 {
        self as u8
    }

    /// The refusal of a library's answer that is not 0.
    pub(crate) fn of(number: u64) -> Refusal {
        match Refusal::from_number(number) {
            Some(refusal) => refusal,
            None => {
                panic!("libstrawhub.a answers {number}, which this crate does not know: they are of different versions")
            }
        }
    }

    /// 0 as success, anything else as the refusal that it is.
    pub(crate) fn check(number: u64) -> Result<(), Refusal> {
        match number {
            0 => Ok(()),
            n => Err(Refusal::of(n)),
        }
    }
}

impl fmt::Display for Refusal {
    fn fmt(&self, f: &mut fmt::Formatter<'_>) -> fmt::Result {
        f.write_str(self.sentence())
    }
}

impl Error for Refusal {}

/// A refusal of a payload, and the place of the type byte of the block that was refused.
///
/// ```
/// use strawhub::{Block, Refusal, RefusedAt};
///
/// // an Address block of size 7
/// let refused = Block::read(&[0x0d, 0x00, 0x07, 0x1f, 0x90], 0).unwrap_err();
/// assert_eq!(refused, RefusedAt { refusal: Refusal::AddressSize, place: 0 });
/// assert_eq!(refused.to_string(), "an address has a size other than 6 or 18, at 0");
/// ```
#[derive(Debug, Clone, Copy, PartialEq, Eq, Hash)]
pub struct RefusedAt {
    /// Why.
    pub refusal: Refusal,

    /// Where: the place of the block's type byte in the payload.
    pub place: usize,
}

impl RefusedAt {
    /// Document 01's number.
    pub const fn number(self) -> u8 {
        self.refusal.number()
    }
}

impl fmt::Display for RefusedAt {
    fn fmt(&self, f: &mut fmt::Formatter<'_>) -> fmt::Result {
        write!(f, "{}, at {}", self.refusal, self.place)
    }
}

impl Error for RefusedAt {
    fn source(&self) -> Option<&(dyn Error + 'static)> {
        Some(&self.refusal)
    }
}

impl From<RefusedAt> for Refusal {
    fn from(refused: RefusedAt) -> Refusal {
        refused.refusal
    }
}
