// The same work in plain Rust: 64 bytes at a time are tested, and each block is looked at once.
// The words are counts of rounds, each with what the bytes are.
// size: 20000 zeros
// size: 1000000 data
// size: 40000 mixed
// size: 20000 ends
use std::env;

const SIZE: usize = 262144;

const BLOCK: usize = 4096;

struct Slice {
    start: u64,
    length: u64,
    zero: bool,
}

#[derive(Clone, Copy)]
enum Content {
    Zeros,
    Data,
    Mixed,
    Ends,
}

fn byte_at(content: Content, place: usize) -> u8 {
    let is_data = match content {
        Content::Zeros => false,
        Content::Data => true,
        Content::Mixed => place / BLOCK % 2 == 1,
        Content::Ends => place % BLOCK == BLOCK - 1,
    };
    u8::from(is_data)
}

fn is_zero(bytes: &[u8]) -> bool {
    let mut chunks = bytes.chunks_exact(64);
    chunks.by_ref().all(|chunk| chunk.iter().fold(0, |all, byte| all | byte) == 0) && chunks.remainder().iter().all(|byte| *byte == 0)
}

/// Appends a block, in one with the piece before it if that is alike.
fn append(found: &mut Vec<Slice>, start: u64, length: u64, zero: bool) {
    match found.last_mut() {
        Some(last) if last.zero == zero => last.length += length,
        _ => found.push(Slice { start, length, zero }),
    }
}

#[inline(never)]
fn pieces(start: u64, bytes: &[u8], block: u32, found: &mut Vec<Slice>) {
    let block = block as usize;
    let first = (block - (start % block as u64) as usize).min(bytes.len());
    let (head, rest) = bytes.split_at(first);
    if !head.is_empty() {
        found.push(Slice { start, length: first as u64, zero: is_zero(head) });
    }
    let mut at = start + first as u64;
    for bytes in rest.chunks(block) {
        append(found, at, bytes.len() as u64, is_zero(bytes));
        at += bytes.len() as u64;
    }
}

fn count(content: Content, rounds: u32) -> u64 {
    let bytes: Vec<u8> = (0..SIZE).map(|place| byte_at(content, place)).collect();
    let mut found = Vec::new();
    let mut count = 0u64;
    for _ in 0..rounds {
        found.clear();
        pieces(0, &bytes, BLOCK as u32, &mut found);
        count = count.wrapping_add(found.len() as u64);
    }
    assert!(found.iter().all(|piece| piece.start < SIZE as u64));
    count
}

fn main() {
    let mut words = env::args().skip(1);
    while let Some(rounds) = words.next() {
        let content = match words.next().as_deref() {
            Some("zeros") => Content::Zeros,
            Some("data") => Content::Data,
            Some("mixed") => Content::Mixed,
            Some("ends") => Content::Ends,
            _ => panic!("each count wants what the bytes are"),
        };
        println!("{}", count(content, rounds.parse().unwrap()));
    }
}
