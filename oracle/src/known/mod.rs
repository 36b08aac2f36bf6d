//! Every row of docs/DIFFERENCES.md, run on both sides: the Rust still answers what the row says, and so does the library.
mod acks;
pub mod blocks;
mod headers;
mod reassembly;

/// Whether the Rust did what a row says, and whether the library did.
pub type Seen = (bool, bool);

/// A row's first cell, and its run.
pub type Row = (&'static str, fn() -> Seen);

const LISTED: &str = include_str!("../../../docs/DIFFERENCES.md");

/// The first cells of the tables below a heading.
fn rows_of(heading: &str) -> Vec<&'static str> {
    let section = LISTED.split("\n## ").find(|s| s.lines().next() == Some(heading)).unwrap_or_default();
    let cell = |line: &'static str| line.strip_prefix("| ").and_then(|l| l.split(" | ").next());
    let is_head = |c: &&str| matches!(*c, "Input" | "Pieces" | "Calls");
    section.lines().filter_map(cell).filter(|c| !is_head(c)).collect()
}

/// Runs the rows of one heading, and holds them against the page; how many were wrong.
fn section(heading: &str, rows: &[Row]) -> (usize, usize) {
    let (listed, mut wrong) = (rows_of(heading), 0);
    for (input, run) in rows {
        let (rust, ours) = run();
        let told = match (rust, ours, listed.contains(input)) {
            (true, true, true) => continue,
            (_, _, false) => "stands in no row of docs/DIFFERENCES.md",
            (false, _, _) => "the Rust does not do what the row says",
            (_, false, _) => "the library does not do what the row says",
        };
        println!("known: {heading}: {input}: {told}");
        wrong += 1;
    }
    for input in listed.iter().filter(|l| rows.iter().all(|(input, _)| input != *l)) {
        println!("known: {heading}: {input}: a row that nothing runs");
        wrong += 1;
    }
    println!("known: {heading}: {} rows run", rows.len());
    (rows.len(), wrong)
}

pub fn run() -> i32 {
    std::panic::set_hook(Box::new(|_| {}));
    let parts = [
        section("Header", headers::ROWS),
        section("Blocks", blocks::ROWS),
        section("Acks", acks::ROWS),
        section("Reassembly", reassembly::ROWS),
    ];
    let (rows, wrong) = parts.iter().fold((0, 0), |(a, b), (c, d)| (a + c, b + d));
    println!("known: {rows} listed differences, {wrong} not as listed");
    (wrong > 0) as i32
}
