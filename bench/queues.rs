//! The same joins and takes on a plain `VecDeque` for each queue, for comparison.

use std::collections::VecDeque;

fn scramble(x: u64) -> u64 {
    x.wrapping_mul(6364136223846793005)
        .wrapping_add(1442695040888963407)
}

fn work(calls: u64) -> u64 {
    let mut queues: [VecDeque<u64>; 8] = std::array::from_fn(|_| VecDeque::with_capacity(64));
    let mut held = 0;
    let mut chance = 1u64;
    let mut sum = 0u64;
    for _ in 0..calls {
        chance = scramble(chance);
        let queue = &mut queues[(chance >> 61) as usize];
        let seen = if chance & 0x1000_0000 == 0 {
            if held < 64 {
                held += 1;
                queue.push_back(chance);
                queue.len() as u64 - 1
            } else {
                64
            }
        } else {
            match queue.pop_front() {
                Some(element) => {
                    held -= 1;
                    element
                }
                None => 65,
            }
        };
        sum = sum.wrapping_mul(31).wrapping_add(seen);
    }
    sum
}

fn main() {
    let calls = std::env::args().nth(1).and_then(|w| w.parse().ok()).unwrap_or(1000);
    let sum = work(calls);
    println!("{calls} joins and takes: {sum}");
}
