//! Counts comparisons, shows progress and prints what differs.
use std::{collections::BTreeMap, fmt::Debug};

const SHOWN: u64 = 5;

pub struct Tally {
    name: &'static str,
    goal: u64,
    pub done: u64,
    pub differ: u64,
    /// Inputs that left the Rust's domain, where the comparison ended.
    pub outside: u64,
    /// How often the Rust gave each answer, by document 01's numbers.
    answers: BTreeMap<u64, u64>,
}

impl Tally {
    pub fn new(name: &'static str, goal: u64) -> Self {
        println!("{name}: comparing");
        Self { name, goal, done: 0, differ: 0, outside: 0, answers: BTreeMap::new() }
    }

    /// As many more beside what was compared.
    pub fn also(&mut self, more: u64) {
        self.goal = self.done + more;
    }

    /// Whether more is wanted.
    pub fn wants(&self) -> bool {
        self.done < self.goal && self.differ < SHOWN
    }

    /// One comparison: the Rust's number, both answers, and the input for whoever has to repeat it.
    pub fn compare<T: PartialEq + Debug>(&mut self, number: u64, rust: &T, ours: &T, input: impl FnOnce() -> String) {
        self.done += 1;
        *self.answers.entry(number).or_default() += 1;
        if self.goal >= 4 && self.done % (self.goal / 4) == 0 {
            println!("{}: {} compared", self.name, self.done);
        }
        if rust == ours {
            return;
        }
        self.differ += 1;
        if self.differ <= SHOWN {
            println!("{}: DIFFERS on {}\n  the Rust: {rust:?}\n  ours:     {ours:?}", self.name, input());
        }
    }

    /// The part's line. An answer that never came up counts as a difference: its inputs were not reached.
    pub fn close(mut self, expected: &[u64]) -> (u64, u64) {
        for number in expected.iter().filter(|n| !self.answers.contains_key(n)) {
            println!("{}: answer {number} never came up", self.name);
            self.differ += 1;
        }
        let outside = if self.outside > 0 { format!(", {} left the domain", self.outside) } else { String::new() };
        let answers: Vec<String> = self.answers.iter().map(|(number, n)| format!("{number}: {n}")).collect();
        println!("{}: {} comparisons{outside}, {} differences; answers {}", self.name, self.done, self.differ, answers.join(", "));
        (self.done, self.differ)
    }
}
