//! Live traffic from the lists that the check programs replay, and hexadecimal.
use std::{fs, path::Path};

pub fn hex(bytes: &[u8]) -> String {
    bytes.iter().map(|b| format!("{b:02x}")).collect()
}

pub fn unhex(text: &str) -> Vec<u8> {
    let digits: Vec<u8> = text.bytes().filter(u8::is_ascii_hexdigit).collect();
    let value = |pair: &[u8]| u8::from_str_radix(std::str::from_utf8(pair).unwrap(), 16).unwrap();
    digits.chunks(2).map(value).collect()
}

fn lines(file: &str) -> Vec<String> {
    let path = Path::new(env!("CARGO_MANIFEST_DIR")).join("..").join(file);
    let text = fs::read_to_string(&path).unwrap_or_else(|e| panic!("{file}: {e}"));
    text.lines().filter(|l| !l.starts_with('#')).map(str::to_string).collect()
}

pub struct Live {
    pub key1: [u8; 32],
    pub key2: [u8; 32],
    pub packet: Vec<u8>,
}

/// Packets that routers sent, with their keys.
pub fn packets() -> Vec<Live> {
    let live = |line: &String| {
        let mut words = line.split(' ').map(unhex);
        let mut next = || words.next().unwrap_or_default();
        let (key1, key2, packet) = (next().try_into().ok()?, next().try_into().ok()?, next());
        Some(Live { key1, key2, packet })
    };
    lines("crates/header_check/stdin").iter().filter_map(live).collect()
}

/// 800 plain payloads of live sessions.
pub fn payloads() -> Vec<Vec<u8>> {
    let first = |line: &String| unhex(line.split(' ').next().unwrap());
    lines("crates/blocks_check/stdin").iter().take(800).map(first).collect()
}
