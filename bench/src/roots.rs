//! Roots of 128-bit numbers against `u128::isqrt`.

use crate::numbers::{best_of, Numbers};

unsafe extern "C" {
    safe fn bsss_bench_floor_root(upper: u64, lower: u64) -> u64;
    safe fn bsss_bench_ceil_root(upper: u64, lower: u64) -> u64;
}

#[inline(never)]
extern "C" fn std_floor_root(upper: u64, lower: u64) -> u64 {
    joined(upper, lower).isqrt() as u64
}

#[inline(never)]
extern "C" fn std_ceil_root(upper: u64, lower: u64) -> u64 {
    let m = joined(upper, lower);
    let root = m.isqrt();
    (root + (root * root < m) as u128) as u64
}

fn joined(upper: u64, lower: u64) -> u128 {
    ((upper as u128) << 64) | lower as u128
}

fn halves(m: u128) -> (u64, u64) {
    ((m >> 64) as u64, m as u64)
}

fn compare(m: u128) {
    let (upper, lower) = halves(m);
    assert_eq!(bsss_bench_floor_root(upper, lower), std_floor_root(upper, lower), "floor root of {m}");
    assert_eq!(bsss_bench_ceil_root(upper, lower), std_ceil_root(upper, lower), "ceil root of {m}");
}

pub fn measure() {
    let mut numbers = Numbers::new();
    println!("roots, ns a call: ours, u128::isqrt");
    for bits in [78, 110, 126] {
        let items: Vec<(u64, u64)> = (0..4096).map(|_| halves(numbers.mixed(bits))).collect();
        for &(upper, lower) in &items {
            compare(joined(upper, lower));
        }
        let ours = best_of(300, &items, |(upper, lower)| bsss_bench_floor_root(upper, lower));
        let theirs = best_of(300, &items, |(upper, lower)| std_floor_root(upper, lower));
        println!("  floor, below 2^{bits}: {ours:.1}, {theirs:.1}");
        let ours = best_of(300, &items, |(upper, lower)| bsss_bench_ceil_root(upper, lower));
        let theirs = best_of(300, &items, |(upper, lower)| std_ceil_root(upper, lower));
        println!("  ceil,  below 2^{bits}: {ours:.1}, {theirs:.1}");
    }
    for _ in 0..1_000_000 {
        let root = numbers.mixed(63);
        for m in [root * root, (root * root).saturating_sub(1), root * root + 1, numbers.mixed(126)] {
            compare(m);
        }
    }
    println!("  4,000,000 more answers are the same");
}
