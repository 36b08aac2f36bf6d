// What reading a header costs beside its keystream blocks, on the same machine in one run.
use std::hint::black_box;
use std::time::Instant;

extern "C" {
    fn strawhub_keystream(key: &[u8; 32], counter: u32, nonce: &[u8; 12], out: &mut [u8; 64]);
    fn strawhub_header_read(pkt: *mut u8, len: usize, k1: &[u8; 32], k2: &[u8; 32], out: &mut [u64; 11]) -> u32;
    fn strawhub_header_write(pkt: *mut u8, len: usize, k1: &[u8; 32], k2: &[u8; 32], kind: u8, destination: u64, number: u32, version: u8, network: u8, source: u64, token: u64, fragment: u8, count: u8, immediate: u8) -> u32;
}

const ROUNDS: usize = 20_000;

fn median(mut v: Vec<f64>) -> f64 {
    v.sort_by(f64::total_cmp);
    v[v.len() / 2]
}

// Nanoseconds for n keystream blocks.
fn blocks(n: u32, key: &[u8; 32]) -> f64 {
    let (mut nonce, mut out) = ([9u8; 12], [0u8; 64]);
    let start = Instant::now();
    for _ in 0..ROUNDS {
        for _ in 0..n {
            unsafe { strawhub_keystream(black_box(key), 1, black_box(&nonce), &mut out) };
            nonce[0] ^= out[0];
        }
    }
    black_box(out);
    start.elapsed().as_nanos() as f64 / ROUNDS as f64
}

// Nanoseconds to read a packet's header; the packet is copied anew each time.
fn reads(packet: &[u8], k1: &[u8; 32], k2: &[u8; 32]) -> f64 {
    let mut work = packet.to_vec();
    let (mut seen, mut out) = (0, [0u64; 11]);
    let start = Instant::now();
    for _ in 0..ROUNDS {
        work[..64.min(packet.len())].copy_from_slice(&packet[..64.min(packet.len())]);
        seen += unsafe { strawhub_header_read(black_box(work.as_mut_ptr()), work.len(), k1, k2, &mut out) };
    }
    assert_eq!(seen, 0, "a packet of the benchmark was refused");
    start.elapsed().as_nanos() as f64 / ROUNDS as f64
}

fn packet(kind: u8, len: usize, k1: &[u8; 32], k2: &[u8; 32]) -> Vec<u8> {
    let mut p: Vec<u8> = (0..len).map(|i| (i * 7 % 251) as u8).collect();
    let r = unsafe { strawhub_header_write(p.as_mut_ptr(), len, k1, k2, kind, 0x1122334455667788, 0, 2, 2, 5, 6, 1, 1, 1) };
    assert_eq!(r, 0);
    p
}

fn main() {
    let (k1, k2) = ([3u8; 32], [4u8; 32]);
    for (name, kind, len, n) in [("Data", 6u8, 1200usize, 2u32), ("Retry", 9, 200, 3), ("SessionRequest", 0, 200, 3)] {
        let p = packet(kind, len, &k1, &k2);
        let (mut a, mut b) = (Vec::new(), Vec::new());
        for _ in 0..101 {
            a.push(reads(&p, &k1, &k2));
            b.push(blocks(n, &k2));
        }
        let (a, b) = (median(a), median(b));
        println!("{name} header of {len} bytes: {a:.1} ns, {n} blocks {b:.1} ns, medians of 101 rounds in turn: ratio {:.3}", a / b);
    }
}
