// Puts and reads rounds of 16,384 simple replies; the first word says how many rounds, else one.
// size: 61
// size: 610
// size: 6100

use std::convert::TryInto;

const MAGIC: u32 = 0x67446698;
const HEADS: u64 = 16384;

enum Read {
    Value { error: u32, cookie: u64 },
    NeedMore,
    BadMagic(u32),
}

fn put_simple(error: u32, cookie: u64, out: &mut [u8; 16]) {
    out[0..4].copy_from_slice(&MAGIC.to_be_bytes());
    out[4..8].copy_from_slice(&error.to_be_bytes());
    out[8..16].copy_from_slice(&cookie.to_be_bytes());
}

fn u32_at(bytes: &[u8], place: usize) -> u32 {
    u32::from_be_bytes(bytes[place..place + 4].try_into().unwrap())
}

fn read_simple(bytes: &[u8]) -> Read {
    if bytes.len() < 4 {
        return Read::NeedMore;
    }
    let found = u32_at(bytes, 0);
    if found != MAGIC {
        return Read::BadMagic(found);
    }
    if bytes.len() < 16 {
        return Read::NeedMore;
    }
    let error = u32_at(bytes, 4);
    let cookie = u64::from_be_bytes(bytes[8..16].try_into().unwrap());
    Read::Value { error, cookie }
}

fn heads() -> Vec<u8> {
    let mut many = Vec::new();
    let mut bytes = [0u8; 16];
    for cookie in 0..HEADS {
        put_simple(0, cookie, &mut bytes);
        many.extend_from_slice(&bytes);
    }
    many
}

#[inline(never)]
fn put_one(cookie: u64, out: &mut [u8; 16]) {
    put_simple(0, cookie, out);
}

fn put_all() -> u64 {
    let mut bytes = [0u8; 16];
    let mut sum = 0u64;
    for cookie in 0..HEADS {
        put_one(cookie, &mut bytes);
        sum = sum.wrapping_add(bytes[15] as u64);
    }
    sum
}

#[inline(never)]
fn read_all(bytes: &[u8]) -> u64 {
    let mut sum = 0u64;
    for head in bytes.chunks(16) {
        match read_simple(head) {
            Read::Value { error, cookie } => sum = sum.wrapping_add(cookie + error as u64),
            Read::BadMagic(magic) => sum ^= magic as u64,
            Read::NeedMore => {}
        }
    }
    sum
}

fn main() {
    let rounds = std::env::args().skip(1).find_map(|word| word.parse::<u32>().ok()).unwrap_or(1);
    let many = heads();
    let (mut put, mut read) = (0u64, 0u64);
    for _round in 0..rounds {
        put = put.wrapping_add(put_all());
        read = read.wrapping_add(read_all(&many));
    }
    println!("put {put} read {read}");
}
