// Listing the live payloads beside a plain C walk that keeps the same promise, in one run.
use std::hint::black_box;
use std::time::Instant;

#[repr(C)]
#[derive(Clone, Copy, Default, PartialEq, Debug)]
struct Entry {
    place: usize,
    kind: u8,
    size: u16,
}

#[repr(C)]
#[derive(Clone, Copy, PartialEq, Debug)]
struct Outcome {
    number: u64,
    value: u64,
}

extern "C" {
    fn strawhub_block_list(payload: *const u8, len: usize, list: *mut Entry, room: usize) -> Outcome;
    fn plain_walk(payload: *const u8, len: usize, list: *mut Entry, room: usize) -> Outcome;
}

fn proved(p: &[u8], list: &mut [Entry]) -> Outcome {
    unsafe { strawhub_block_list(p.as_ptr(), p.len(), list.as_mut_ptr(), list.len()) }
}

fn plain(p: &[u8], list: &mut [Entry]) -> Outcome {
    unsafe { plain_walk(p.as_ptr(), p.len(), list.as_mut_ptr(), list.len()) }
}

type Lists = fn(&[u8], &mut [Entry]) -> Outcome;

fn time(f: Lists, payloads: &[Vec<u8>], list: &mut [Entry]) -> f64 {
    let start = Instant::now();
    for p in payloads {
        black_box(f(black_box(p), list));
    }
    start.elapsed().as_nanos() as f64 / payloads.len() as f64
}

fn median(mut v: Vec<f64>) -> f64 {
    v.sort_by(f64::total_cmp);
    v[v.len() / 2]
}

fn main() {
    let text = std::fs::read_to_string("crates/blocks_check/stdin").expect("the list of blocks_check");
    let bytes = |hex: &str| (0..hex.len() / 2).map(|i| u8::from_str_radix(&hex[2 * i..2 * i + 2], 16).unwrap()).collect();
    let all: Vec<Vec<u8>> = text.lines().map(|l| bytes(l.split(' ').next().unwrap())).collect();
    let (mut a, mut b) = (vec![Entry::default(); 512], vec![Entry::default(); 512]);
    for p in &all {
        assert_eq!((proved(p, &mut a), &a), (plain(p, &mut b), &b), "a payload is listed in two ways");
    }
    println!("{} payloads are listed the same", all.len());
    let live = &all[..800];
    let (mut ours, mut theirs) = (Vec::new(), Vec::new());
    for _ in 0..1001 {
        theirs.push(time(plain, live, &mut b));
        ours.push(time(proved, live, &mut a));
    }
    let (x, y) = (median(ours), median(theirs));
    println!("a live payload listed: proved {x:.1} ns, C walk {y:.1} ns, medians of 1,001 rounds in turn: ratio {:.3}", x / y);
    let (three, many) = ([254u8, 0, 0].repeat(3), [254u8, 0, 0].repeat(21_845));
    let mut long = vec![Entry::default(); 21_845];
    let few = median((0..1001).map(|_| time(proved, &vec![three.clone(); 100], &mut a) / 3.0).collect());
    let lots = median((0..101).map(|_| time(proved, &[many.clone()], &mut long) / 21_845.0).collect());
    println!("an empty block listed: {few:.1} ns of three, {lots:.1} ns of 21,845");
}
