//! SSU2 headers, blocks, acknowledgements, packets sent and reassembly, for a daemon in Rust.
//!
//! The work is done by libstrawhub.a, whose every function is proved to meet its contract on every
//! input; this crate gives it types and lifetimes. Nothing here allocates, nothing needs std, and
//! unsafe code stands in one private module over the C calls.
//!
//! - [`HeaderReader`] unmasks and reads a packet's header, [`HeaderKind::write`] writes one.
//! - [`Block`] reads and writes a block, [`blocks`] walks a payload, [`list_blocks`] lists it.
//! - [`RemoteAckManager`] keeps the packet numbers that came and acknowledges them.
//! - [`Sender`] gives out the numbers of packets that are sent, and keeps those that are not acknowledged yet.
//! - [`FragmentHandler`] puts the pieces of I2NP messages together, for up to four neighbours, and refuses late
//!   repeats of finished ones.
//!
//! A call that cannot do what it was asked gives a [`Refusal`], and then no state and no lent byte
//! has changed.
//!
//! ```
//! use strawhub::{blocks, Delivered, FragmentStorage, STORAGE};
//!
//! let mut storage = FragmentStorage::over(vec![0; STORAGE])?;
//! let mut handler = storage.handler();
//!
//! // FollowOnFragment 1, the last, and FirstFragment, of message 7
//! let payload = b"\x05\x00\x07\x03\x00\x00\x00\x07cd\x04\x00\x0b\x14\x00\x00\x00\x07\x00\x00\x00\x09ab";
//! let mut letters = 0;
//! for block in blocks(payload) {
//!     let (place, _) = block?;
//!     if let Delivered::Rebuilt(message) = handler.deliver(payload, place, 1_700_000_000)? {
//!         assert_eq!((message.message_type, message.message_id), (20, 7));
//!         assert_eq!(message.payload, b"abcd");
//!         letters += 1;
//!     }
//! }
//! assert_eq!(letters, 1);
//! # Ok::<(), Box<dyn std::error::Error>>(())
//! ```
#![no_std]
#![deny(unsafe_code)]
#![warn(missing_docs)]

mod ack;
mod block;
#[allow(unsafe_code)]
mod ffi;
mod fragment;
mod header;
mod refusal;
mod sender;

pub use ack::{expand, AckInfo, Ranges, RemoteAckManager};
pub use block::{blocks, list_blocks, Block, Blocks};
pub use ffi::Entry;
pub use fragment::{Delivered, FragmentHandler, FragmentStorage, Message, MESSAGE, NEIGHBOURS, RECORD, ROOM, STORAGE};
pub use header::{keystream, HeaderKind, HeaderReader, MessageType, ProtocolVersion};
pub use refusal::{Refusal, RefusedAt};
pub use sender::{Outstanding, Sender, MOST_OUTSTANDING};
