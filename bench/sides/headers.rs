//! Reading a header. Both sides get the packet's first 64 bytes copied anew before each read; nothing else is cleared.
use crate::Row;
use oracle::{
    ffi::{header_read, header_write, Fields},
    message::HeaderReader,
};
use std::hint::black_box;

const READS: usize = 1_000;
const KEYS: ([u8; 32], [u8; 32]) = ([3; 32], [4; 32]);

fn packet(kind: u8, len: usize) -> Vec<u8> {
    let mut packet: Vec<u8> = (0..len).map(|i| (i * 7 % 251) as u8).collect();
    let named = Fields { kind, destination: 5, version: 2, network: 2, source: 6, token: 7, ..Fields::default() };
    assert_eq!(header_write(&mut packet, &KEYS.0, &KEYS.1, &named), 0);
    packet
}

/// A round of reads of a packet, each on a renewed copy.
fn reads(packet: &[u8], mut read: impl FnMut(&mut [u8]) + 'static) -> Box<dyn FnMut()> {
    let (fresh, mut work) = (packet.to_vec(), packet.to_vec());
    Box::new(move || {
        for _ in 0..READS {
            work[..64].copy_from_slice(&fresh[..64]);
            read(black_box(&mut work));
        }
    })
}

fn row(name: &str, kind: u8, len: usize) -> Row {
    let packet = packet(kind, len);
    let rust = |p: &mut [u8]| {
        let mut reader = HeaderReader::new(KEYS.0, p).expect("a packet that is long enough");
        black_box(reader.dst_id());
        black_box(reader.parse(KEYS.1).expect("a good packet"));
    };
    let ours = |p: &mut [u8]| {
        let mut out = [0; 11];
        assert_eq!(header_read(p, &KEYS.0, &KEYS.1, &mut out), 0);
        black_box(out);
    };
    Row {
        name: format!("{name} header of {len} bytes read"),
        rust: reads(&packet, rust),
        ours: reads(&packet, ours),
        ready: None,
        copy: Some(reads(&packet, |_| ())),
        operations: READS,
    }
}

pub fn rows() -> Vec<Row> {
    vec![row("Data", 6, 1_200), row("SessionRequest", 0, 200), row("Retry", 9, 200)]
}
