// The same work in plain Rust: a walk along the ranges, and a queue of runs from which slices are cut.
// The words are counts of rounds, each with a count of ranges.
// size: 10 500000
// size: 10 1000000
use std::collections::VecDeque;
use std::env;

const CELL: u64 = 262144;

#[derive(Clone, Copy)]
struct Slice {
    start: u64,
    length: u64,
    zero: bool,
}

#[derive(Default)]
struct Plan {
    runs: VecDeque<Slice>,
}

impl Plan {
    fn push(&mut self, start: u64, end: u64, zero: bool) {
        if start < end {
            self.runs.push_back(Slice { start, length: end - start, zero });
        }
    }

    fn window(&mut self, start: u64, length: u64, ranges: &[(u64, u64)]) {
        let (mut at, end) = (start, start + length);
        let first = ranges.partition_point(|range| range.0 + range.1 <= at);
        for &(start, length) in &ranges[first..] {
            if start >= end {
                break;
            }
            self.push(at, start, false);
            self.push(at.max(start), (start + length).min(end), true);
            at = (start + length).min(end);
        }
        self.push(at, end, false);
    }

    fn next(&mut self) -> Option<Slice> {
        let run = self.runs.front_mut()?;
        let slice = Slice { length: (CELL - run.start % CELL).min(run.length), ..*run };
        run.start += slice.length;
        run.length -= slice.length;
        if run.length == 0 {
            self.runs.pop_front();
        }
        Some(slice)
    }
}

fn main() {
    let mut words = env::args().skip(1);
    while let Some(rounds) = words.next() {
        let count: u64 = words.next().unwrap().parse().unwrap();
        let ranges: Vec<(u64, u64)> = (0..count).map(|number| (number * 1024, 512)).collect();
        let mut zeros = 0u64;
        for _ in 0..rounds.parse::<u32>().unwrap() {
            let mut plan = Plan::default();
            plan.window(0, count * 1024, &ranges);
            while let Some(slice) = plan.next() {
                if slice.zero {
                    zeros += slice.length;
                }
            }
        }
        println!("{zeros}");
    }
}
