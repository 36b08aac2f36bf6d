// A ChaCha20 block of the proved library beside the same block written plainly in Rust, on the same inputs in one run.
mod block;
use block::block as plain;
use std::hint::black_box;
use std::time::Instant;

extern "C" {
    fn strawhub_keystream(key: &[u8; 32], counter: u32, nonce: &[u8; 12], out: &mut [u8; 64]);
}

type Block = fn(&[u8; 32], u32, &[u8; 12], &mut [u8; 64]);

fn proved(key: &[u8; 32], counter: u32, nonce: &[u8; 12], out: &mut [u8; 64]) {
    unsafe { strawhub_keystream(key, counter, nonce, out) }
}

// Nanoseconds a block, over 20,000 blocks, each of which feeds the next key.
fn time(f: Block) -> f64 {
    let (mut key, mut nonce, mut out) = ([7u8; 32], [9u8; 12], [0u8; 64]);
    let start = Instant::now();
    for i in 0..20_000 {
        f(black_box(&key), i, black_box(&nonce), &mut out);
        key.copy_from_slice(&out[..32]);
        nonce.copy_from_slice(&out[32..44]);
    }
    let ns = start.elapsed().as_nanos() as f64 / 20_000.0;
    black_box(key);
    ns
}

fn main() {
    let (mut a, mut b, mut key) = ([0u8; 64], [0u8; 64], [0u8; 32]);
    for i in 0..100_000u32 {
        key[(i % 32) as usize] = key[(i % 32) as usize].wrapping_add((i / 3) as u8);
        let nonce = [(i % 251) as u8; 12];
        plain(&key, i, &nonce, &mut a);
        proved(&key, i, &nonce, &mut b);
        assert_eq!(a, b, "block {i} differs");
    }
    println!("100000 blocks are the same");
    let (mut ours, mut theirs) = (Vec::new(), Vec::new());
    for _ in 0..101 {
        theirs.push(time(plain));
        ours.push(time(proved));
    }
    ours.sort_by(f64::total_cmp);
    theirs.sort_by(f64::total_cmp);
    println!("a block: proved {:.1} ns, plain Rust {:.1} ns, medians of 101 rounds in turn: ratio {:.3}", ours[50], theirs[50], ours[50] / theirs[50]);
}
