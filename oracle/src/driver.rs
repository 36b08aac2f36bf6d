//! The Rust's acks by lines, for tests/acks_list.py: `ack new`, `ack reg N`, `ack rep`; an answer for each.
use oracle::ack::RemoteAckManager;
use std::io::{stdin, stdout, BufRead, Write};

fn answer(manager: &mut RemoteAckManager, line: &str) -> Option<String> {
    match line.split(' ').collect::<Vec<_>>()[..] {
        ["ack", "new"] => *manager = RemoteAckManager::new(),
        ["ack", "reg", number] => manager.register_pkt(number.parse().ok()?),
        ["ack", "rep"] => {
            let a = manager.ack_info();
            return Some(format!("through={} count={} pairs={:?}", a.highest_seen, a.num_acks, a.ranges));
        }
        _ => return None,
    }
    Some("ok".to_string())
}

pub fn run() -> i32 {
    let mut manager = RemoteAckManager::new();
    for line in stdin().lock().lines().map_while(Result::ok) {
        let Some(text) = answer(&mut manager, &line) else {
            eprintln!("oracle: no call of acks: {line}");
            return 2;
        };
        println!("{text}");
        if stdout().flush().is_err() {
            return 1;
        }
    }
    0
}
