//! Sorting the nodes of a tree into preorder, against three sorts of as many 64-bit keys.

use crate::numbers::Numbers;
use crate::rows::SquareRow;
use std::time::Instant;

unsafe extern "C" {
    fn bsss_bench_log(
        squares: *const SquareRow,
        count: usize,
        logged: *mut SquareRow,
        logged_count: usize,
    ) -> bool;
    fn bsss_bench_preorder(
        squares: *const SquareRow,
        count: usize,
        sorted: *mut SquareRow,
        sorted_count: usize,
    ) -> bool;
}

/// The squares of a tree of this many splits, those above before those below, each level in a mixed order.
fn squares(splits: usize, numbers: &mut Numbers) -> Vec<SquareRow> {
    let mut all = vec![SquareRow { x: 0, y: 0, level: 37 }];
    let mut from = 0;
    for _ in 0..splits {
        let last = all.len() - 1;
        let pick = from + numbers.next() as usize % (last - from + 1).min(4096);
        all.swap(from, pick);
        let SquareRow { x, y, level } = all[from];
        from += 1;
        let half = 1 << (level - 1);
        for (dx, dy) in [(0, 0), (half, 0), (0, half), (half, half)] {
            all.push(SquareRow { x: x + dx, y: y + dy, level: level - 1 });
        }
    }
    all
}

/// How many milliseconds this takes: the least of three times.
fn time(mut run: impl FnMut()) -> f64 {
    let timed = |_| {
        let start = Instant::now();
        run();
        start.elapsed().as_secs_f64() * 1000.0
    };
    (0..3).map(timed).fold(f64::INFINITY, f64::min)
}

/// Prints the times, and sees that the squares come out in the order of the z curve, the larger first where two have one corner.
pub fn measure() {
    let mut numbers = Numbers::new();
    let squares = squares(1_000_000, &mut numbers);
    let count = squares.len();
    let mut sorted = squares.clone();
    // SAFETY: here and below each pointer goes with its length, and the call writes to `sorted` alone.
    let log_time = time(|| assert!(unsafe { bsss_bench_log(squares.as_ptr(), count, sorted.as_mut_ptr(), count) }));
    // SAFETY: as above.
    let all_time =
        time(|| assert!(unsafe { bsss_bench_preorder(squares.as_ptr(), count, sorted.as_mut_ptr(), count) }));
    assert!(sorted.is_sorted_by_key(|row| (z_key(row), 37 - row.level)), "preorder");
    let keys: Vec<u64> = squares.iter().map(|_| numbers.next()).collect();
    let mut copy = keys.clone();
    let copy_time = time(|| copy.copy_from_slice(&keys));
    let stable_time = time(|| {
        copy.copy_from_slice(&keys);
        copy.sort();
    });
    let unstable_time = time(|| {
        copy.copy_from_slice(&keys);
        copy.sort_unstable();
    });
    println!("{count} nodes, ms: into preorder; three sorts of as many keys, stable, unstable");
    let sorts = [stable_time, unstable_time].map(|sort_time| 3.0 * (sort_time - copy_time));
    println!("  {:.0}; {:.0}, {:.0}", all_time - log_time, sorts[0], sorts[1]);
}

/// The bits of the corner, each bit of y above the bit of x of its place.
fn z_key(row: &SquareRow) -> u128 {
    (0..37).map(|i| ((row.x >> i & 1) as u128) << (2 * i) | ((row.y >> i & 1) as u128) << (2 * i + 1)).sum()
}
