//! The exclusion test over 128 polygons, against the same test in ordinary Rust.

use crate::numbers::{best_of, Numbers};
use crate::rows::SquareRow;
use std::fmt::Write;

unsafe extern "C" {
    fn bsss_bench_excluded(
        text: *const u8,
        length: usize,
        squares: *const SquareRow,
        square_count: usize,
        answers: *mut u8,
        answer_count: usize,
    ) -> bool;
}

/// A polygon as the proved code keeps it: its corners in lengths, and its box in grid units.
pub struct Polygon {
    corners: Vec<(i32, i32)>,
    low: (i64, i64),
    high: (i64, i64),
}

impl Polygon {
    /// A polygon of 64 corners near a circle, all in lengths.
    pub fn round(x: i64, y: i64, radius: i64) -> Self {
        let corner = |k: i32| {
            let angle = f64::from(k) / 64.0 * std::f64::consts::TAU;
            let at = |middle: i64, part: f64| middle as i32 + (radius as f64 * part).round() as i32;
            (at(x, angle.cos()), at(y, angle.sin()))
        };
        let grid = |z: i64| 65536 * z;
        Polygon {
            corners: (0..64).map(corner).collect(),
            low: (grid(x - radius), grid(y - radius)),
            high: (grid(x + radius), grid(y + radius)),
        }
    }

    fn edges(&self) -> impl Iterator<Item = ((i32, i32), (i32, i32))> {
        let next = self.corners.iter().skip(1).chain(&self.corners[..1]);
        self.corners.iter().copied().zip(next.copied())
    }
}

/// The side of a grid point on an edge.
fn side(a: (i32, i32), b: (i32, i32), p: (i64, i64)) -> i64 {
    let way = |from: i32, to: i32| i64::from(to) - i64::from(from);
    way(a.0, b.0) * (p.1 - 65536 * i64::from(a.1)) - way(a.1, b.1) * (p.0 - 65536 * i64::from(a.0))
}

fn corners(square: SquareRow) -> [(i64, i64); 4] {
    let (x, y, side) = (square.x, square.y, 1 << square.level);
    [(x, y), (x + side, y), (x, y + side), (x + side, y + side)]
}

fn is_apart(polygon: &Polygon, square: SquareRow) -> bool {
    let [low, .., high] = corners(square);
    let boxes = polygon.high.0 < low.0 || high.0 < polygon.low.0 || polygon.high.1 < low.1 || high.1 < polygon.low.1;
    boxes || polygon.edges().any(|(a, b)| corners(square).iter().all(|c| side(a, b, *c) < 0))
}

fn encloses(polygon: &Polygon, square: SquareRow) -> bool {
    corners(square).iter().all(|c| polygon.edges().all(|(a, b)| side(a, b, *c) > 0))
}

#[inline(never)]
fn std_excluded(permitted: &[Polygon], forbidden: &[Polygon], square: SquareRow) -> bool {
    permitted.iter().all(|p| is_apart(p, square)) || forbidden.iter().any(|p| encloses(p, square))
}

/// The lines of an instance text that say these polygons.
pub fn polygon_lines(word: &str, polygons: &[Polygon]) -> String {
    let mut text = String::new();
    for polygon in polygons {
        text.push_str(word);
        for (x, y) in &polygon.corners {
            write!(text, " {x} {y}").unwrap();
        }
        text.push('\n');
    }
    text
}

fn text_of(permitted: &[Polygon], forbidden: &[Polygon]) -> String {
    let head = String::from("siting 1\nkind sum\npoint 0 0 1\n");
    head + &polygon_lines("permit", permitted) + &polygon_lines("forbid", forbidden) + "end\n"
}

fn call(text: &str, squares: &[SquareRow], answers: &mut [u8]) {
    // SAFETY: each pointer goes with its length, and the call writes to `answers` alone.
    let made = unsafe {
        bsss_bench_excluded(
            text.as_ptr(),
            text.len(),
            squares.as_ptr(),
            squares.len(),
            answers.as_mut_ptr(),
            answers.len(),
        )
    };
    assert!(made, "the text says an instance, and the rows are squares");
}

/// Polygons with their middles within 850,000 lengths of the origin, both ways.
fn polygons(numbers: &mut Numbers) -> Vec<Polygon> {
    let middle = |numbers: &mut Numbers| (numbers.next() % 1_700_001) as i64 - 850_000;
    (0..64)
        .map(|_| Polygon::round(middle(numbers), middle(numbers), 1000 + (numbers.next() % 149_001) as i64))
        .collect()
}

/// Squares of at most 128 lengths with their corners in the boxes of these polygons.
fn squares_in(numbers: &mut Numbers, polygons: &[Polygon]) -> Vec<SquareRow> {
    (0..4096)
        .map(|k| {
            let polygon = &polygons[k % polygons.len()];
            let within = |n: u64, low: i64, high: i64| low + (n % (high - low) as u64) as i64;
            SquareRow {
                x: within(numbers.next(), polygon.low.0, polygon.high.0),
                y: within(numbers.next(), polygon.low.1, polygon.high.1),
                level: (numbers.next() % 24) as u8,
            }
        })
        .collect()
}

/// Squares of every level with their corners anywhere.
fn squares_anywhere(numbers: &mut Numbers) -> Vec<SquareRow> {
    let corner = |numbers: &mut Numbers| (numbers.next() % (1 << 37)) as i64 - (1 << 36);
    (0..4096)
        .map(|_| SquareRow { x: corner(numbers), y: corner(numbers), level: (numbers.next() % 37) as u8 })
        .collect()
}

pub fn measure() {
    let mut numbers = Numbers::new();
    let (permitted, forbidden) = (polygons(&mut numbers), polygons(&mut numbers));
    let text = text_of(&permitted, &forbidden);
    println!("exclusion over 64 permitted and 64 forbidden polygons of 64 corners, ns a square: ours, the same test");
    for (what, squares) in [
        ("squares anywhere", squares_anywhere(&mut numbers)),
        ("in boxes of permitted polygons", squares_in(&mut numbers, &permitted)),
        ("in boxes of forbidden polygons", squares_in(&mut numbers, &forbidden)),
    ] {
        let mut answers = vec![0; squares.len()];
        call(&text, &squares, &mut answers);
        for (square, answer) in squares.iter().zip(&answers) {
            assert_eq!(*answer == 1, std_excluded(&permitted, &forbidden, *square), "at {square:?}");
        }
        let excluded: usize = answers.iter().map(|answer| *answer as usize).sum();
        // The call reads the text first, so what that costs is taken away.
        let time = |squares: &[SquareRow]| {
            best_of(20, &[()], |()| {
                call(&text, squares, &mut answers.clone());
                0
            })
        };
        let our_time = (time(&squares) - time(&[])) / squares.len() as f64;
        let their_time = best_of(20, &squares, |square| std_excluded(&permitted, &forbidden, square) as u64);
        println!("  {what}, {excluded} of {} excluded: {our_time:.0}, {their_time:.0}", squares.len());
    }
}
