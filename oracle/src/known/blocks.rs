use super::{Row, Seen};
use oracle::{
    error::parser::Ssu2ParseError,
    ffi::{block_list, block_write, Entry, Outcome},
    i2np::{Message, MessageType},
    message::Block,
    primitives::{MessageId, RouterInfo},
    runtime::Rt,
};
use std::{panic::catch_unwind, process::Command, thread, time::Duration};

pub const ROWS: &[Row] = &[
    ("types 14, 22 to 253 and 255, size 0", unknown),
    ("types 7 to 10, size 0", relays),
    ("type 11, size 2", next_nonce),
    ("21,845 blocks, size 0", many),
    ("padding of 65,536 bytes, written", long_padding),
    ("an Ack of 32,766 pairs, written", long_ack),
    ("types 1 to 5 and 17 to 21, written", written),
];

/// Our listing of a payload.
fn listed(payload: &[u8]) -> (Outcome, Entry) {
    let mut list = [Entry::default(); 2];
    (block_list(payload, &mut list), list[0])
}

fn one_block(payload: &[u8]) -> bool {
    let size = payload.len() as u16 - 3;
    listed(payload) == (Outcome { number: 0, value: 1 }, Entry { place: 0, kind: payload[0], size })
}

fn unknown() -> Seen {
    let types = || (22..=253).chain([14, 255]);
    let fails = |t: u8| matches!(Block::parse::<Rt>(&[t, 0, 0]), Err(Ssu2ParseError::InvalidBlock(n)) if n == t);
    (types().all(fails), types().all(|t| one_block(&[t, 0, 0])))
}

fn relays() -> Seen {
    let fails = |t: u8| matches!(Block::parse::<Rt>(&[t, 0, 0]), Err(Ssu2ParseError::Nom(_)));
    ((7..=10).all(fails), (7..=10).all(|t| one_block(&[t, 0, 0])))
}

fn next_nonce() -> Seen {
    let payload = [11, 0, 2, 1, 2];
    let rust = Block::parse::<Rt>(&payload);
    (matches!(rust.as_deref(), Ok([Block::Unsupported])), one_block(&payload))
}

const MANY: usize = 21_845;

/// What the child of `many` does: the Rust's parser on a thread with 8 MB of stack.
pub fn overflow() -> i32 {
    let parse = || Block::parse::<Rt>(&[254, 0, 0].repeat(MANY)).is_ok();
    let thread = thread::Builder::new().stack_size(8 << 20).spawn(parse).expect("a thread");
    println!("the Rust parsed {MANY} blocks: {:?}", thread.join());
    0
}

/// The overflow ends a process, so the Rust's side runs in one of its own.
fn many() -> Seen {
    let own = std::env::current_exe().expect("this program's path");
    let child = Command::new(own).arg("overflow").output().expect("a child");
    let killed = child.status.code().is_none() && String::from_utf8_lossy(&child.stderr).contains("overflowed its stack");
    let mut list = vec![Entry::default(); MANY];
    (killed, block_list(&[254, 0, 0].repeat(MANY), &mut list) == Outcome { number: 0, value: MANY as u64 })
}

/// Our answer to a block that is too long; the room stays.
fn too_long(kind: u8, bytes: &[u8]) -> bool {
    let mut room = vec![9; 70_000];
    block_write(&mut room, kind, &[0; 8], bytes).number == 31 && room == vec![9; 70_000]
}

fn long_padding() -> Seen {
    let padding = vec![7; 65_536];
    let ours = too_long(254, &padding);
    (Block::Padding { padding }.serialize()[..4] == [254, 0, 0, 7], ours)
}

fn long_ack() -> Seen {
    let ranges = vec![(7, 7); 32_766];
    let rust = Block::Ack { ack_through: 0, num_acks: 0, ranges }.serialize();
    (rust[..3] == [12, 0, 1], too_long(12, &[7; 65_532]))
}

fn blocks() -> Vec<Block> {
    let (message_type, message_id, expiration) = (MessageType(20), MessageId::from(1), 9);
    let message = Message { message_type, message_id: 1, expiration: Duration::from_secs(9), payload: vec![1] };
    vec![
        Block::Options { t_min: 0, t_max: 0, r_min: 0, r_max: 0, t_dmy: 0, r_dmy: 0, t_delay: 0, r_delay: 0 },
        Block::RouterInfo { router_info: Box::new(RouterInfo), serialized: vec![1].into() },
        Block::I2Np { message },
        Block::FirstFragment { message_type, message_id, expiration, fragment: vec![1] },
        Block::FollowOnFragment { last: true, message_id, fragment_num: 1, fragment: vec![1] },
        Block::NewToken { expires: 1, token: 2 },
        Block::PathChallenge { challenge: vec![1] },
        Block::PathResponse { response: vec![1] },
        Block::FirstPacketNumber { first_pkt_num: 1 },
        Block::Congestion { flag: 1 },
    ]
}

fn written() -> Seen {
    let panics = |b: Block| catch_unwind(std::panic::AssertUnwindSafe(|| b.serialize())).is_err();
    let mut room = [0; 100];
    let mut writes = |t: u8| block_write(&mut room, t, &[1; 8], &[1]).number == 0;
    (blocks().into_iter().all(panics), (1..=5).chain(17..=21).all(&mut writes))
}
