//! The library beside the original Rust, and the sender's list beside a `BTreeMap`, on the same inputs in one run: `sides time [COUNTS]`
//! prints the tables, `sides count` runs each operation a few times between marks, for a tool that counts instructions. `sides sender`
//! is the sender's table alone. bench/run builds it and runs it.
mod acks;
mod headers;
mod listing;
mod reassembly;
mod sender;
mod table;

use oracle::crypto::chachapoly::PLAIN;
use std::{hint::black_box, sync::atomic::Ordering, time::Instant};

pub type Work = Box<dyn FnMut()>;

/// One operation: what each side does in a round, and how many operations that is.
pub struct Row {
    pub name: String,
    pub rust: Work,
    pub ours: Work,
    /// What makes each side ready for its round, outside its time.
    pub ready: Option<(Work, Work)>,
    /// The same bytes copied, where the operation handles bytes.
    pub copy: Option<Work>,
    pub operations: usize,
}

fn rows() -> Vec<Row> {
    let mut rows = headers::rows();
    rows.extend(listing::rows());
    rows.extend(acks::rows());
    rows.extend(reassembly::rows());
    rows
}

/// Nanoseconds an operation.
fn time(f: &mut dyn FnMut(), operations: usize) -> f64 {
    let start = Instant::now();
    f();
    start.elapsed().as_nanos() as f64 / operations as f64
}

impl Row {
    fn rust_ready(&mut self) -> &mut Work {
        self.ready.iter_mut().for_each(|(ready, _)| ready());
        &mut self.rust
    }

    fn ours_ready(&mut self) -> &mut Work {
        self.ready.iter_mut().for_each(|(_, ready)| ready());
        &mut self.ours
    }
}

/// Rounds in turn, now one side first and now the other.
fn measure(row: &mut Row, rounds: usize) -> table::Times {
    let mut times = table::Times::default();
    let sides: [fn(&mut Row) -> &mut Work; 2] = [Row::rust_ready, Row::ours_ready];
    for round in 0..rounds {
        let mut taken = [0.0; 2];
        for side in [round % 2, 1 - round % 2] {
            let operations = row.operations;
            taken[side] = time(sides[side](row), operations);
        }
        let copy = row.copy.as_mut().map(|f| time(f, row.operations));
        times.push(taken[0], taken[1], copy);
    }
    times
}

/// The rows' names with their times.
fn measured(mut rows: Vec<Row>) -> Vec<(String, table::Times)> {
    let all = rows.iter_mut().map(|row| {
        eprintln!("sides: {}", row.name);
        let times = measure(row, ROUNDS);
        (row.name.clone(), times)
    });
    all.collect()
}

const ROUNDS: usize = 301;

fn sent(counts: &table::Counts) {
    table::print("A BTreeMap", &measured(sender::rows()), counts);
    sender::growth(ROUNDS);
}

fn timed(counts: Option<String>) {
    println!("sides: {ROUNDS} rounds in turn of each operation, load {}", table::load());
    let counts = table::counts(counts);
    table::print("The Rust", &measured(rows()), &counts);
    sent(&counts);
    println!("sides: done, load {}", table::load());
}

/// The marks differ, or the compiler makes them one.
#[no_mangle]
#[inline(never)]
pub extern "C" fn count_begin() {
    black_box(1);
}

#[no_mangle]
#[inline(never)]
pub extern "C" fn count_end() {
    black_box(2);
}

/// Between each pair of marks one round of one side; the lines say which, in order, and how many operations it was.
fn counted() {
    for mut row in rows().into_iter().chain(sender::rows()) {
        let sides: [(&str, fn(&mut Row) -> &mut Work); 2] = [("rust", Row::rust_ready), ("ours", Row::ours_ready)];
        for (side, ready) in sides {
            ready(&mut row)();
            let f = ready(&mut row);
            count_begin();
            f();
            count_end();
            println!("{}\t{side}\t{}", row.name, row.operations);
        }
    }
}

fn main() {
    PLAIN.store(true, Ordering::Relaxed);
    let mut words = std::env::args().skip(1);
    match words.next().as_deref() {
        Some("time") => timed(words.next()),
        Some("count") => counted(),
        Some("sender") => sent(&table::counts(words.next())),
        _ => {
            eprintln!("sides: time [COUNTS] | count | sender [COUNTS]");
            std::process::exit(2)
        }
    }
}
