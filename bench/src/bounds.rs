//! Coarse, fine and centre bounds of squares and costs of sites, over 4,096 demand points, against the same formulas in ordinary
//! Rust.

use crate::numbers::{best_of, Numbers};
use crate::reference::{Kind, Objective, Point};
use crate::root_estimate::{Roots, StdRoots};
use crate::rows::SquareRow;

#[repr(C)]
#[derive(Clone, Copy, Debug)]
struct PointRow {
    x: i32,
    y: i32,
    w: i32,
    cutoff: i32,
}

type Value = unsafe extern "C" fn(*const PointRow, usize, *const SquareRow, usize, *mut i64, usize) -> bool;
type Pair = unsafe extern "C" fn(*const PointRow, usize, *const SquareRow, usize, *mut i64, usize, *mut i64, usize) -> bool;

unsafe extern "C" {
    fn bsss_bench_coarse(
        points: *const PointRow,
        count: usize,
        squares: *const SquareRow,
        square_count: usize,
        values: *mut i64,
        value_count: usize,
    ) -> bool;
    fn bsss_bench_fine(
        points: *const PointRow,
        count: usize,
        squares: *const SquareRow,
        square_count: usize,
        values: *mut i64,
        value_count: usize,
    ) -> bool;
    fn bsss_bench_centre(
        points: *const PointRow,
        count: usize,
        squares: *const SquareRow,
        square_count: usize,
        values: *mut i64,
        value_count: usize,
    ) -> bool;
    fn bsss_bench_upper(
        points: *const PointRow,
        count: usize,
        squares: *const SquareRow,
        square_count: usize,
        values: *mut i64,
        value_count: usize,
    ) -> bool;
    fn bsss_bench_coarse_and_fine(
        points: *const PointRow,
        count: usize,
        squares: *const SquareRow,
        square_count: usize,
        firsts: *mut i64,
        first_count: usize,
        seconds: *mut i64,
        second_count: usize,
    ) -> bool;
    fn bsss_bench_fine_and_upper(
        points: *const PointRow,
        count: usize,
        squares: *const SquareRow,
        square_count: usize,
        firsts: *mut i64,
        first_count: usize,
        seconds: *mut i64,
        second_count: usize,
    ) -> bool;
    fn bsss_bench_costs(
        points: *const PointRow,
        count: usize,
        squares: *const SquareRow,
        square_count: usize,
        firsts: *mut i64,
        first_count: usize,
        seconds: *mut i64,
        second_count: usize,
    ) -> bool;
}

fn objective(rows: &[PointRow]) -> Objective {
    let grid = |v: i32| 65536 * i64::from(v);
    let cutoff = |c: i32| (c != 0).then_some(65536 * c as u64);
    let point = |row: &PointRow| Point { x: grid(row.x), y: grid(row.y), w: row.w.into(), cutoff: cutoff(row.cutoff) };
    Objective { kind: Kind::Sum, points: rows.iter().map(point).collect() }
}

/// The greater of the fine bound and the cut at the square's centre, all four corners in one pass.
#[inline(never)]
fn std_centre(objective: &Objective, square: SquareRow) -> i64 {
    let least = objective.fine::<StdRoots>(square);
    if square.level == 0 {
        return least;
    }
    let half = 1i64 << (square.level - 1);
    let (mut at_centre, mut right, mut upper) = (0i128, 0i64, 0i64);
    for d in &objective.points {
        if d.w > 0 && d.cutoff.is_none() {
            let (dx, dy) = (square.x + half - d.x, square.y + half - d.y);
            let way = |z: i64| z.unsigned_abs() as u128;
            let length = StdRoots::ceil(way(dx) * way(dx) + way(dy) * way(dy)) as i64;
            let (ux, uy) = if length == 0 { (0, 0) } else { ((dx << 20) / length, (dy << 20) / length) };
            at_centre += d.w as i128 * (ux * dx + uy * dy) as i128;
            right += d.w * ux;
            upper += d.w * uy;
        } else {
            at_centre += 16 * d.w as i128 * d.radius::<StdRoots>(square, 16) as i128;
        }
    }
    let cut = at_centre - half as i128 * (right.unsigned_abs() + upper.unsigned_abs()) as i128;
    least.max((cut >> 20) as i64)
}

/// A call of the proved code.
#[derive(Clone, Copy)]
enum Ours {
    Value(Value),
    Pair(Pair),
}

/// Writes what a call answers of each square, a second number only where it answers two.
fn call(ours: Ours, points: &[PointRow], squares: &[SquareRow], firsts: &mut [i64], seconds: &mut [i64]) {
    let (point, square, first) = (points.as_ptr(), squares.as_ptr(), firsts.as_mut_ptr());
    // SAFETY: each pointer goes with its length, and the call writes to `firsts` and `seconds` alone.
    let made = unsafe {
        match ours {
            Ours::Value(value) => value(point, points.len(), square, squares.len(), first, firsts.len()),
            Ours::Pair(pair) => {
                let second = seconds.as_mut_ptr();
                pair(point, points.len(), square, squares.len(), first, firsts.len(), second, seconds.len())
            }
        }
    };
    assert!(made, "the rows make an instance");
}

fn points(numbers: &mut Numbers, repelling: bool, cutoffs: bool) -> Vec<PointRow> {
    let coordinate = |numbers: &mut Numbers| (numbers.next() % 2_000_001) as i32 - 1_000_000;
    (0..4096)
        .map(|_| {
            let size = (numbers.next() % 3906) as i32 + 1;
            let cutoff = if cutoffs { (numbers.next() % 4_000_001) as i32 } else { 0 };
            PointRow {
                x: coordinate(numbers),
                y: coordinate(numbers),
                w: if repelling && numbers.next() % 2 == 0 { -size } else { size },
                cutoff,
            }
        })
        .collect()
}

fn squares(numbers: &mut Numbers) -> Vec<SquareRow> {
    let corner = |numbers: &mut Numbers| (numbers.next() % (1 << 37)) as i64 - (1 << 36);
    (0..64)
        .map(|_| SquareRow { x: corner(numbers), y: corner(numbers), level: (numbers.next() % 37) as u8 })
        .collect()
}

/// Prints the times, and compares what is computed. The site of a cost is the lower left corner of the square.
pub fn measure() {
    let mut numbers = Numbers::new();
    println!("bounds of squares and costs of sites over 4,096 points, ns a point: ours, the same formula by u128::isqrt");
    let rows: [(&str, Ours, fn(&Objective, SquareRow) -> (i64, i64)); 7] = [
        ("coarse bound", Ours::Value(bsss_bench_coarse), |o, e| (o.coarse::<StdRoots>(e), 0)),
        ("fine bound", Ours::Value(bsss_bench_fine), |o, e| (o.fine::<StdRoots>(e), 0)),
        ("both bounds", Ours::Pair(bsss_bench_coarse_and_fine), Objective::coarse_and_fine::<StdRoots>),
        ("centre bound", Ours::Value(bsss_bench_centre), |o, e| (std_centre(o, e), 0)),
        ("upper cost", Ours::Value(bsss_bench_upper), |o, e| (o.upper::<StdRoots>((e.x, e.y)), 0)),
        ("both costs", Ours::Pair(bsss_bench_costs), |o, e| o.costs::<StdRoots>((e.x, e.y))),
        ("fine bound and upper cost", Ours::Pair(bsss_bench_fine_and_upper), |o, e| {
            (o.fine::<StdRoots>(e), o.upper::<StdRoots>((e.x, e.y)))
        }),
    ];
    for (what, repelling, cutoffs) in
        [("attracting points", false, false), ("mixed signs", true, false), ("mixed signs and cutoffs", true, true)]
    {
        let points = points(&mut numbers, repelling, cutoffs);
        let objective = objective(&points);
        let squares = squares(&mut numbers);
        for (name, ours, theirs) in rows {
            let (mut firsts, mut seconds) = (vec![0; squares.len()], vec![0; squares.len()]);
            call(ours, &points, &squares, &mut firsts, &mut seconds);
            for (square, pair) in squares.iter().zip(firsts.iter().copied().zip(seconds.iter().copied())) {
                assert_eq!(pair, theirs(&objective, *square), "{name} at {square:?}");
            }
            let per_point = 1.0 / (points.len() * squares.len()) as f64;
            let our_time = best_of(20, &[()], |()| {
                call(ours, &points, &squares, &mut firsts.clone(), &mut seconds.clone());
                0
            }) * per_point;
            let their_time = best_of(4, &squares, |square| theirs(&objective, square).0 as u64) / points.len() as f64;
            println!("  {name}, {what}: {our_time:.1}, {their_time:.1}");
        }
    }
}
