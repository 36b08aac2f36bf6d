//! The errors that the three files name, with what they carry.

#[derive(Debug, Clone, PartialEq, Eq)]
pub enum Ssu2Error {
    NotEnoughBytes,
    Malformed,
    InvalidVersion,
}

pub mod parser {
    use nom::error::{ErrorKind, ParseError};

    #[derive(Debug, Clone, PartialEq, Eq)]
    pub enum I2npParseError {
        InvalidMessage(u8),
        InvalidSize,
        Nom(ErrorKind),
    }

    #[derive(Debug, Clone, PartialEq, Eq)]
    pub enum RouterInfoParseError {
        Opaque,
    }

    #[derive(Debug, Clone, PartialEq, Eq)]
    pub enum Ssu2ParseError {
        InvalidMessageTypeFirstFrag(u8),
        EmptyFirstFragment,
        FirstFragmentTooShort,
        EmptyFollowOnFragment,
        FollowOnFragmentTooShort,
        EmptyRouterInfo,
        CompressionFailure,
        RouterInfo(RouterInfoParseError),
        InvalidBitstream,
        UnknownPeerTestMessage(u8),
        InvalidAddressBlock(u16),
        InvalidBlock(u8),
        I2np(I2npParseError),
        Nom(ErrorKind),
    }

    impl<I> ParseError<I> for I2npParseError {
        fn from_error_kind(_: I, kind: ErrorKind) -> Self {
            Self::Nom(kind)
        }
        fn append(_: I, _: ErrorKind, other: Self) -> Self {
            other
        }
    }

    impl<I> ParseError<I> for Ssu2ParseError {
        fn from_error_kind(_: I, kind: ErrorKind) -> Self {
            Self::Nom(kind)
        }
        fn append(_: I, _: ErrorKind, other: Self) -> Self {
            other
        }
    }

    impl From<I2npParseError> for Ssu2ParseError {
        fn from(error: I2npParseError) -> Self {
            Self::I2np(error)
        }
    }

    impl From<nom::Err<Ssu2ParseError>> for Ssu2ParseError {
        fn from(error: nom::Err<Ssu2ParseError>) -> Self {
            match error {
                nom::Err::Error(e) | nom::Err::Failure(e) => e,
                nom::Err::Incomplete(_) => unreachable!("the parsers are complete ones"),
            }
        }
    }
}
