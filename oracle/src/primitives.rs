//! Ids, and a RouterInfo that takes every byte string: its contents are opaque here. No oracle.
use crate::{error::parser::RouterInfoParseError, runtime::Runtime};
use std::ops::Deref;

#[derive(Debug, Clone, Copy, PartialEq, Eq, Hash, PartialOrd, Ord)]
pub struct MessageId(u32);

impl From<u32> for MessageId {
    fn from(id: u32) -> Self {
        Self(id)
    }
}

impl Deref for MessageId {
    type Target = u32;
    fn deref(&self) -> &u32 {
        &self.0
    }
}

#[derive(Debug, Clone, PartialEq, Eq)]
pub struct RouterId(pub Vec<u8>);

impl<T: AsRef<[u8]>> From<T> for RouterId {
    fn from(id: T) -> Self {
        Self(id.as_ref().to_vec())
    }
}

#[derive(Debug, Clone)]
pub struct RouterInfo;

impl RouterInfo {
    pub fn parse<R: Runtime>(_: impl AsRef<[u8]>) -> Result<Self, RouterInfoParseError> {
        Ok(Self)
    }
}
