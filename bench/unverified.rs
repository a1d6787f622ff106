// The loads of dmc_bench on the unverified queue of queue.rs. It has the same checksums.
// Build: rustc -O -o unverified bench/unverified.rs
// Run: ./unverified CLIENTS ROUNDS [LIMIT]
mod queue;

use queue::Queue;
use std::time::Instant;

fn tell(part: &str, calls: usize, nanos: u128) {
    eprintln!("{part} {calls} {nanos}");
}

fn main() {
    let words: Vec<usize> = std::env::args().skip(1).map(|word| word.parse().unwrap()).collect();
    let (clients, rounds) = (words[0], words[1]);
    // a limit's spacing, and the ticks from one batch to the next
    let spacing = words.get(2).map_or(0, |limit| 1_000_000 / *limit as u64);
    let step = if spacing == 0 { 1 } else { spacing / 2 };
    let mut queue = Queue::new();
    let start = Instant::now();
    for id in 0..clients {
        queue.register(id as u32, (Some(100_000), spacing, 1_000_000));
    }
    tell("register", clients, start.elapsed().as_nanos());
    let start = Instant::now();
    for id in 0..clients {
        queue.add(id as u32, id as u32, 1, 1, 0);
    }
    tell("newcomer", clients, start.elapsed().as_nanos());
    let batch = (clients / 2 + 1).min(rounds);
    let mut granted = Vec::with_capacity(batch);
    let (mut pulling, mut adding, mut checksum) = (0, 0, 0u64);
    for round in 0..rounds / batch {
        let at = (round as u64 * step) as i128;
        let start = Instant::now();
        for _ in 0..batch {
            granted.extend(queue.pull(at).map(|grant| grant.0));
        }
        pulling += start.elapsed().as_nanos();
        let start = Instant::now();
        for id in &granted {
            queue.add(*id, *id, 1, 1, at);
            checksum = checksum.wrapping_mul(31).wrapping_add(*id as u64);
        }
        adding += start.elapsed().as_nanos();
        granted.clear();
    }
    tell("pull", rounds / batch * batch, pulling);
    tell("add", rounds / batch * batch, adding);
    println!("{checksum}");
}
