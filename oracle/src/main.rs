//! Compares the original Rust's three files, unchanged, with the proved library, call by call.
mod acks;
mod blocks;
mod driver;
mod headers;
mod known;
mod reassembly;
mod tally;
mod written;

const USAGE: &str = "oracle: compare SEED COUNT | known | acks";

fn number(word: Option<String>) -> u64 {
    word.and_then(|w| w.parse().ok()).unwrap_or_else(|| {
        eprintln!("{USAGE}");
        std::process::exit(2)
    })
}

fn compare(seed: u64, count: u64) -> i32 {
    println!("oracle: seed {seed}, at least {count} comparisons of each part");
    let parts = [
        headers::compare,
        headers::compare_written,
        blocks::compare,
        written::compare,
        acks::compare,
        reassembly::compare,
    ];
    let (mut all, mut wrong) = (0, 0);
    for part in parts {
        let (done, differ) = part(seed, count);
        (all, wrong) = (all + done, wrong + differ);
    }
    println!("oracle: {all} comparisons, {wrong} differences");
    (wrong > 0) as i32
}

fn main() {
    let mut words = std::env::args().skip(1);
    let status = match words.next().as_deref() {
        Some("compare") => compare(number(words.next()), number(words.next())),
        Some("known") => known::run(),
        Some("overflow") => known::blocks::overflow(),
        Some("acks") => driver::run(),
        _ => {
            eprintln!("{USAGE}");
            2
        }
    };
    std::process::exit(status)
}
