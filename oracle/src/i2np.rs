//! Stands in for the I2NP file, which is not at hand: the types' list and block 3's parser are document 01's. No oracle.
use crate::error::parser::I2npParseError;
use nom::{
    bytes::complete::take,
    number::complete::{be_u16, be_u32, be_u8},
    Err, IResult,
};
use std::time::Duration;

/// The number itself is kept.
#[derive(Debug, Clone, Copy, PartialEq, Eq)]
pub struct MessageType(pub u8);

impl MessageType {
    pub fn from_u8(kind: u8) -> Option<Self> {
        matches!(kind, 1 | 2 | 3 | 10 | 11 | 18..=26).then_some(Self(kind))
    }
}

#[derive(Debug, Clone, PartialEq, Eq)]
pub struct Message {
    pub message_type: MessageType,
    pub message_id: u32,
    pub expiration: Duration,
    pub payload: Vec<u8>,
}

impl Message {
    pub fn serialized_len_short(&self) -> usize {
        self.payload.len() + 9
    }

    pub fn parse_frame_short(input: &[u8]) -> IResult<&[u8], Message, I2npParseError> {
        let (rest, size) = be_u16(input)?;
        if size < 9 {
            return Err(Err::Error(I2npParseError::InvalidSize));
        }
        let (rest, kind) = be_u8(rest)?;
        let (rest, message_id) = be_u32(rest)?;
        let (rest, expires) = be_u32(rest)?;
        let message_type = MessageType::from_u8(kind).ok_or(Err::Error(I2npParseError::InvalidMessage(kind)))?;
        let (rest, payload) = take(size - 9)(rest)?;
        let expiration = Duration::from_secs(expires as u64);
        Ok((rest, Message { message_type, message_id, expiration, payload: payload.to_vec() }))
    }
}
