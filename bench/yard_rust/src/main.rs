//! What `bench_yard` does, by a mutex for each lane and an atomic counter.
//!
//! Given the number of threads and of rounds for each, it prints how many numbers were drawn, and how often its four lanes
//! were worked on.

use std::sync::atomic::{AtomicU64, Ordering::SeqCst};
use std::sync::Mutex;

const LANES: usize = 4;

/// A lane, on cache lines of its own.
#[repr(align(128))]
struct Lane(Mutex<u64>);

#[repr(align(128))]
struct Counter(AtomicU64);

/// Makes rounds over the lanes, from this one on, and lists the numbers that it drew.
fn work(lanes: &[Lane; LANES], counter: &Counter, from: usize, rounds: usize) -> Vec<u64> {
    let mut numbers = Vec::new();
    for round in 0..rounds {
        let mut lane = lanes[(from + round) % LANES].0.lock().unwrap();
        *lane += 1;
        let number = counter.0.fetch_add(1, SeqCst);
        drop(lane);
        numbers.push(number);
    }
    numbers
}

fn main() {
    let number = |place| std::env::args().nth(place).and_then(|word| word.parse().ok()).unwrap_or(0);
    let (threads, rounds) = (number(1), number(2));
    let lanes: [Lane; LANES] = std::array::from_fn(|_| Lane(Mutex::new(0)));
    let counter = Counter(AtomicU64::new(0));
    let mut numbers = Vec::new();
    std::thread::scope(|scope| {
        let others: Vec<_> = (1..threads)
            .map(|thread| {
                let (lanes, counter) = (&lanes, &counter);
                scope.spawn(move || work(lanes, counter, thread, rounds))
            })
            .collect();
        numbers = work(&lanes, &counter, 0, rounds);
        for other in others {
            numbers.extend(other.join().unwrap());
        }
    });
    let counted: u64 = lanes.iter().map(|lane| *lane.0.lock().unwrap()).sum();
    println!("{} {counted}", numbers.len());
}
