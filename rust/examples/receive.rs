//! Prints the blocks of a payload and what they deliver: `cargo run --example receive -- 0000046553f100`.
use std::process::ExitCode;
use strawhub::{blocks, FragmentStorage, STORAGE};

/// DateTime, then pieces 0, 2 (the last), 5 (of another letter) and 1 of one id.
const SAMPLE: &str = "0000046553f100 04000e14000000076554000068656c6c6f 05000b0500000007776f726c6421
                      05000a0a000000077374726179 05000702000000072c20";

fn bytes_of(hex: &str) -> Option<Vec<u8>> {
    let digits: Vec<u8> =
        hex.chars().filter(|c| !c.is_whitespace()).map(|c| Some(c.to_digit(16)? as u8)).collect::<Option<_>>()?;
    (digits.len() % 2 == 0).then(|| digits.chunks(2).map(|pair| pair[0] * 16 + pair[1]).collect())
}

fn main() -> ExitCode {
    let hex = std::env::args().skip(1).collect::<String>();
    let Some(payload) = bytes_of(if hex.is_empty() { SAMPLE } else { &hex }) else {
        eprintln!("receive: the payload is not written in pairs of hexadecimal digits");
        return ExitCode::FAILURE;
    };
    let mut storage = FragmentStorage::over(vec![0; STORAGE]).expect("all bytes are there");
    let mut handler = storage.handler();
    for block in blocks(&payload) {
        match block {
            Ok((place, block)) => {
                println!("{place}: {block:?}");
                match handler.deliver(&payload, place, 1_700_000_000).map(|delivered| delivered.message()) {
                    Ok(Some(message)) => println!("   message {:?}", String::from_utf8_lossy(message.payload)),
                    Ok(None) => {}
                    Err(refused) => println!("   refused {}: {refused}", refused.number()),
                }
            }
            Err(refused) => {
                println!("refused {}: {refused}", refused.number());
                return ExitCode::FAILURE;
            }
        }
    }
    ExitCode::SUCCESS
}
