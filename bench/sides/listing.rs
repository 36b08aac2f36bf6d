//! Listing the 800 live payloads. The Rust's blocks are dropped within its time; our list is not cleared between calls.
use crate::Row;
use oracle::{
    ffi::{block_list, Entry},
    inputs::payloads,
    message::Block,
    runtime::Rt,
};
use std::hint::black_box;

pub fn rows() -> Vec<Row> {
    let live = payloads();
    let (mut list, mut copied) = (vec![Entry::default(); 512], vec![0; 65_535]);
    for p in &live {
        let rust = Block::parse::<Rt>(p).expect("a live payload").len() as u64;
        assert_eq!((0, rust), (0, block_list(p, &mut list).value), "both count the same blocks");
    }
    let (a, b, c) = (live.clone(), live.clone(), live);
    vec![Row {
        name: "a live payload listed".to_string(),
        operations: a.len(),
        rust: Box::new(move || a.iter().for_each(|p| drop(black_box(Block::parse::<Rt>(black_box(p)))))),
        ours: Box::new(move || {
            for p in &b {
                black_box(block_list(black_box(p), &mut list));
            }
        }),
        ready: None,
        copy: Some(Box::new(move || {
            for p in &c {
                copied[..p.len()].copy_from_slice(black_box(p));
                black_box(&copied);
            }
        })),
    }]
}
