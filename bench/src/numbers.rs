//! What the measurements share: made numbers, and the time of a call.

use std::hint::black_box;
use std::time::Instant;

/// A fixed sequence of pseudo-random numbers (xorshift).
pub struct Numbers(u64);

impl Numbers {
    pub fn new() -> Self {
        Numbers(88_172_645_463_325_252)
    }

    pub fn next(&mut self) -> u64 {
        self.0 ^= self.0 << 13;
        self.0 ^= self.0 >> 7;
        self.0 ^= self.0 << 17;
        self.0
    }

    /// A number of at most `bits` binary digits, where each count of digits from 1 on is as likely.
    pub fn mixed(&mut self, bits: u32) -> u128 {
        let digits = 1 + self.next() as u32 % bits;
        (((self.next() as u128) << 64) | self.next() as u128) >> (128 - digits)
    }
}

/// The best time of a call over the rounds, in nanoseconds: each round calls it once on each item.
pub fn best_of<T: Copy>(rounds: u32, items: &[T], call: impl Fn(T) -> u64) -> f64 {
    let mut best = f64::MAX;
    for _ in 0..rounds {
        let start = Instant::now();
        let mut sum = 0u64;
        for &item in items {
            sum = sum.wrapping_add(call(item));
        }
        black_box(sum);
        best = best.min(start.elapsed().as_nanos() as f64 / items.len() as f64);
    }
    best
}
