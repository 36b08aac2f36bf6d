//! The original Rust's three files, unchanged, in the least world that they build in, and the proved library's calls.
//! What stands in for a file that is not at hand says so where it stands; it is no oracle.
#![allow(dead_code, unused_imports, clippy::all)]
extern crate alloc;

pub mod crypto;
pub mod error;
pub mod ffi;
pub mod i2np;
pub mod inputs;
pub mod primitives;
pub mod random;
pub mod runtime;
pub mod transport;

include!(concat!(env!("OUT_DIR"), "/emissary/glue.rs"));
