//! Medians, quartiles and the table.
use std::{collections::HashMap, fs};

#[derive(Default)]
pub struct Times {
    rust: Vec<f64>,
    ours: Vec<f64>,
    ratios: Vec<f64>,
    copies: Vec<f64>,
}

impl Times {
    pub fn push(&mut self, rust: f64, ours: f64, copy: Option<f64>) {
        self.rust.push(rust);
        self.ours.push(ours);
        self.ratios.push(ours / rust);
        self.copies.extend(copy);
    }
}

/// The lower quartile, the median and the upper quartile.
pub fn quartiles(values: &[f64]) -> [f64; 3] {
    let mut v = values.to_vec();
    v.sort_by(f64::total_cmp);
    [v[v.len() / 4], v[v.len() / 2], v[v.len() * 3 / 4]]
}

pub fn load() -> String {
    let text = fs::read_to_string("/proc/loadavg").unwrap_or_default();
    text.split(' ').next().unwrap_or("unknown").to_string()
}

pub type Counts = HashMap<(String, String), f64>;

/// Instructions an operation by row and side, from lines of name, side, operations and instructions.
pub fn counts(file: Option<String>) -> Counts {
    let text = file.map(|f| fs::read_to_string(&f).unwrap_or_else(|e| panic!("{f}: {e}"))).unwrap_or_default();
    let line = |l: &str| {
        let w: Vec<&str> = l.split('\t').collect();
        let per = w.get(3)?.parse::<f64>().ok()? / w[2].parse::<f64>().ok()?;
        Some(((w[0].to_string(), w[1].to_string()), per))
    };
    text.lines().filter_map(line).collect()
}

fn lower(name: &str) -> String {
    name[..1].to_lowercase() + &name[1..]
}

/// The table beside another side, by its name.
pub fn print(beside: &str, all: &[(String, Times)], counts: &Counts) {
    println!("\n| Operation | {beside}, ns | Here, ns | Ratio (quartiles) | The bytes copied, ns | Instructions: {} | here | Ratio |", lower(beside));
    println!("|---|---|---|---|---|---|---|---|");
    for (name, t) in all {
        let [low, middle, high] = quartiles(&t.ratios);
        let copy = if t.copies.is_empty() { "–".to_string() } else { format!("{:.1}", quartiles(&t.copies)[1]) };
        let of = |side: &str| counts.get(&(name.clone(), side.to_string()));
        let counted = match (of("rust"), of("ours")) {
            (Some(a), Some(b)) => format!("{a:.0} | {b:.0} | {:.2}", b / a),
            _ => "– | – | –".to_string(),
        };
        let (rust, ours) = (quartiles(&t.rust)[1], quartiles(&t.ours)[1]);
        println!("| {name} | {rust:.1} | {ours:.1} | {middle:.3} ({low:.3} to {high:.3}) | {copy} | {counted} |");
    }
    println!();
}
