// The same work in plain Rust: a slab of vacant places in a list, an index that is a HashMap, the rows beside them,
// and the order of the cookies in a queue whose ends are tidied. The hasher is one multiplication, folded, as the
// kit's maps have it: Rust's own would be slower.
// The words are counts of rounds, each with a number of commands and an order.
// size: 2000 1024 rising
// size: 2000 1024 falling
// size: 2000 1024 mixed
use std::collections::{HashMap, VecDeque};
use std::env;
use std::hash::{BuildHasherDefault, Hasher};

#[derive(Clone, Copy)]
enum Order {
    Rising,
    Falling,
    Mixed,
}

fn number_at(order: Order, done: u32, count: u32) -> u64 {
    match order {
        Order::Rising => done as u64,
        Order::Falling => (count - 1 - done) as u64,
        Order::Mixed => done as u64 * 7919 % count as u64,
    }
}

/// A hasher by one multiplication, folded: what the kit's maps have.
#[derive(Default)]
struct FoldHasher(u64);

impl Hasher for FoldHasher {
    fn write(&mut self, bytes: &[u8]) {
        for byte in bytes {
            self.write_u64(*byte as u64);
        }
    }

    fn write_u64(&mut self, number: u64) {
        let wide = (self.0 ^ number) as u128 * 0x9e37_79b9_7f4a_7c15;
        self.0 = wide as u64 ^ (wide >> 64) as u64;
    }

    fn finish(&self) -> u64 {
        self.0
    }
}

#[derive(Clone, Copy)]
struct Spot {
    cookie: u64,
    done: bool,
}

enum Entry {
    Vacant(usize),
    Occupied(Spot),
}

/// A slab as the crate of that name has it: vacant entries are linked.
#[derive(Default)]
struct Slab {
    entries: Vec<Entry>,
    len: usize,
    next: usize,
}

impl Slab {
    fn insert(&mut self, spot: Spot) -> usize {
        let key = self.next;
        self.len += 1;
        if key == self.entries.len() {
            self.entries.push(Entry::Occupied(spot));
            self.next = key + 1;
        } else {
            if let Entry::Vacant(next) = self.entries[key] {
                self.next = next;
            }
            self.entries[key] = Entry::Occupied(spot);
        }
        key
    }

    fn get(&self, key: usize) -> Option<&Spot> {
        match self.entries.get(key) {
            Some(Entry::Occupied(spot)) => Some(spot),
            _ => None,
        }
    }

    fn remove(&mut self, key: usize) -> Spot {
        let next = self.next;
        match std::mem::replace(&mut self.entries[key], Entry::Vacant(next)) {
            Entry::Occupied(spot) => {
                self.len -= 1;
                self.next = key;
                spot
            }
            Entry::Vacant(_) => panic!("vacant"),
        }
    }
}

struct Row {
    offset: u64,
    length: u64,
    answered: bool,
}

#[derive(Default)]
struct Table {
    spots: Slab,
    index: HashMap<u64, usize, BuildHasherDefault<FoldHasher>>,
    rows: Vec<Option<Row>>,
    order: VecDeque<(u64, usize)>,
    done: VecDeque<u64>,
}

impl Table {
    fn insert(&mut self, cookie: u64, row: Row) {
        let key = self.spots.insert(Spot { cookie, done: false });
        self.index.insert(cookie, key);
        self.order.push_back((cookie, key));
        self.done.reserve(self.spots.len - self.done.len());
        if key == self.rows.len() {
            self.rows.push(None);
        }
        self.rows[key] = Some(row);
    }

    fn get_mut(&mut self, cookie: u64) -> Option<&mut Row> {
        let key = *self.index.get(&cookie)?;
        self.rows[key].as_mut()
    }

    fn remove(&mut self, cookie: u64) -> Option<Row> {
        let key = self.index.remove(&cookie)?;
        if self.spots.remove(key).done {
            self.done.retain(|other| *other != cookie);
        }
        let row = self.rows[key].take();
        self.tidy();
        row
    }

    /// Drops the places that went at both ends, and all of them where they are many.
    fn tidy(&mut self) {
        let spots = &self.spots;
        let stands = |place: &(u64, usize)| spots.get(place.1).is_some_and(|spot| spot.cookie == place.0);
        if self.order.len().saturating_sub(32) / 2 > spots.len {
            self.order.retain(stands);
        }
        while self.order.front().is_some_and(|place| !stands(place)) {
            self.order.pop_front();
        }
        while self.order.back().is_some_and(|place| !stands(place)) {
            self.order.pop_back();
        }
    }
}

fn retire(table: &mut Table, cookie: u64) -> u64 {
    if let Some(row) = table.get_mut(cookie) {
        row.answered = true;
    }
    match table.remove(cookie) {
        Some(row) if row.answered => row.offset.wrapping_add(row.length),
        _ => 0,
    }
}

fn round(table: &mut Table, first: u64, count: u32, order: Order) -> u64 {
    for number in 0..count {
        let row = Row { offset: number as u64 * 512, length: 512, answered: false };
        table.insert(first + number as u64, row);
    }
    let mut sum = 0u64;
    for done in 0..count {
        sum = sum.wrapping_add(retire(table, first + number_at(order, done, count)));
    }
    sum
}

fn main() {
    let mut words = env::args().skip(1);
    while let Some(rounds) = words.next() {
        let count: u32 = words.next().unwrap().parse().unwrap();
        let order = match words.next().as_deref() {
            Some("rising") => Order::Rising,
            Some("falling") => Order::Falling,
            Some("mixed") => Order::Mixed,
            _ => panic!("each count wants an order"),
        };
        let mut table = Table::default();
        let mut sum = 0u64;
        for done in 0..rounds.parse::<u64>().unwrap() {
            sum = sum.wrapping_add(round(&mut table, done * 1024 + 1, count, order));
        }
        println!("{sum}");
    }
}
