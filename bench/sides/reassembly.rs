//! A piece taken, over whole messages. The Rust's time has the making of the Vec that its call takes and the dropping of the
//! message that it gives; neither side's state, room or buffer is cleared between messages. Each message has a new id, for the
//! library refuses those that it remembers; it remembers 16 of a neighbour from that neighbour's 16th message on, and no sweep is
//! made. One message at a time is neighbour 0's; of 16, each of the library's neighbours has 4, and the Rust's one handler all.
use crate::Row;
use oracle::{
    ffi::Store,
    fragment::FragmentHandler,
    i2np::MessageType,
    primitives::MessageId,
    random::Random,
    runtime::{NoMetrics, Rt},
};
use std::{hint::black_box, rc::Rc};

/// A message's piece on its way from a neighbour.
struct Piece {
    from: u64,
    id: u32,
    number: u8,
    last: bool,
    place: usize,
    bytes: Vec<u8>,
}

#[derive(Clone, Copy)]
enum Order {
    Up,
    Down,
    Mixed,
}

/// The pieces of some messages: each message's in an order, the messages in turn.
fn pieces(lengths: &[usize], order: Order, open: u32) -> Vec<Piece> {
    let mut random = Random::new(lengths.len() as u64);
    let mut numbers: Vec<usize> = (0..lengths.len()).collect();
    match order {
        Order::Up => (),
        Order::Down => numbers.reverse(),
        Order::Mixed => random.shuffle(&mut numbers),
    }
    let mut all = Vec::new();
    for number in numbers {
        for id in 1..=open {
            let (place, bytes) = (lengths[..number].iter().sum(), random.bytes(lengths[number]));
            let from = (id as u64 - 1) % 4;
            all.push(Piece { from, id, number: number as u8, last: number + 1 == lengths.len(), place, bytes });
        }
    }
    all
}

fn rust(handler: &mut FragmentHandler<Rt>, p: &Piece, first_id: u32) -> bool {
    let id = MessageId::from(p.id.wrapping_add(first_id));
    let message = match p.number {
        0 => handler.first_fragment(MessageType(20), id, 9, p.bytes.to_vec()),
        n => handler.follow_on_fragment(id, n, p.last, p.bytes.to_vec()),
    };
    black_box(message).is_some()
}

fn ours(store: &mut Store, p: &Piece, first_id: u32) -> bool {
    let id = p.id.wrapping_add(first_id);
    let reply = match p.number {
        0 => store.first(p.from, id, 20, 9, 0, &p.bytes),
        n => store.follow_on(p.from, id, n, p.last, 0, &p.bytes),
    };
    black_box(reply).number == 60
}

fn row(name: String, lengths: &[usize], order: Order, open: u32) -> Row {
    let all = Rc::new(pieces(lengths, order, open));
    let times = (2_000 / all.len()).max(1);
    let (a, b, c) = (all.clone(), all.clone(), all.clone());
    let (mut handler, mut store, mut buffer) = (FragmentHandler::new(NoMetrics), Store::new(), vec![0u8; 65_535]);
    let done = open as usize * times;
    let (mut theirs, mut mine) = (0u32, 0u32); // the ids that were used
    Row {
        name,
        rust: Box::new(move || {
            let mut finished = 0;
            for _ in 0..times {
                finished += a.iter().filter(|p| rust(&mut handler, p, theirs)).count();
                theirs = theirs.wrapping_add(open);
            }
            assert_eq!(finished, done);
        }),
        ours: Box::new(move || {
            let mut finished = 0;
            for _ in 0..times {
                finished += b.iter().filter(|p| ours(&mut store, p, mine)).count();
                mine = mine.wrapping_add(open);
            }
            assert_eq!(finished, done);
        }),
        ready: None,
        copy: Some(Box::new(move || {
            for p in (0..times).flat_map(|_| c.iter()) {
                buffer[p.place..p.place + p.bytes.len()].copy_from_slice(black_box(&p.bytes));
                black_box(&buffer);
            }
        })),
        operations: times * all.len(),
    }
}

pub fn rows() -> Vec<Row> {
    let mut largest = vec![1_500; 43];
    largest.push(1_035);
    let shapes = [vec![64; 2], vec![1_439; 2], vec![511; 8], vec![64; 128], vec![511; 128], largest];
    let orders = [
        ("in order", Order::Up, 1),
        ("reversed", Order::Down, 1),
        ("mixed", Order::Mixed, 1),
        ("16 messages mixed", Order::Mixed, 16),
    ];
    let mut rows = Vec::new();
    for lengths in &shapes {
        let (count, total) = (lengths.len(), lengths.iter().sum::<usize>());
        for (word, order, open) in orders {
            let name = format!("a piece of {} bytes, {count} in a message of {total}, {word}", lengths[0]);
            rows.push(row(name, lengths, order, open));
        }
    }
    rows
}
