// The same work in plain Rust: ranges kept in a BTreeMap from start to length, joined where they touch.
// The words are counts, each with an order and a distance; ranges at a distance of 512 touch.
// size: 200 x 1000 rising 1024
// size: 200 x 1000 falling 1024
// size: 200 x 1000 mixed 1024
// size: 20 x 20000 rising 1024
// size: 200000 falling 1024
// size: 200000 mixed 1024
// size: 5 x 200000 rising 1024
// size: 200000 falling 512
// size: 100000 mixed 512
// size: 1000000 rising 1024
// size: 1000000 rising 512
// size: 1000000 falling 512
use std::collections::BTreeMap;
use std::env;

#[derive(Clone, Copy)]
enum Order {
    Rising,
    Falling,
    Mixed,
}

fn number_at(order: Order, done: u32, count: u32) -> u64 {
    match order {
        Order::Rising => done as u64,
        Order::Falling => (count - 1 - done) as u64,
        Order::Mixed => done as u64 * 7919 % count as u64,
    }
}

/// Adds a range, in one with the neighbours that it touches. False where a position is held already.
fn add(ranges: &mut BTreeMap<u64, u64>, start: u64, length: u64) -> bool {
    let (mut start, mut length) = (start, length);
    if let Some((&first, &count)) = ranges.range(..=start).next_back() {
        if first + count > start {
            return false;
        }
        if first + count == start {
            start = first;
            length += count;
        }
    }
    let end = start + length;
    if let Some((&next, &count)) = ranges.range(start + 1..).next() {
        if next < end {
            return false;
        }
        if next == end {
            ranges.remove(&next);
            length += count;
        }
    }
    ranges.insert(start, length);
    true
}

fn fill(order: Order, count: u32, distance: u16) -> usize {
    let mut ranges = BTreeMap::new();
    for done in 0..count {
        assert!(add(&mut ranges, number_at(order, done, count) * distance as u64, 512));
    }
    ranges.len()
}

fn main() {
    let mut words = env::args().skip(1);
    while let Some(count) = words.next() {
        let order = match words.next().as_deref() {
            Some("rising") => Order::Rising,
            Some("falling") => Order::Falling,
            Some("mixed") => Order::Mixed,
            _ => panic!("each count wants an order"),
        };
        let distance = words.next().unwrap().parse().unwrap();
        println!("{}", fill(order, count.parse().unwrap(), distance));
    }
}
