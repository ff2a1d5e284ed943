//! A valid answer with as many squares as an answer may have.

use std::collections::{HashSet, VecDeque};
use std::fmt::Write;

const SPLITS: usize = 1_000_000;
const WEIGHT: i128 = 16_000_000;
const REACH: i64 = 500_000;
const LEVEL: u32 = 36;

/// The least corner of the permitted square, in grid units, is -LIMIT both ways, and the greatest LIMIT.
const LIMIT: i64 = 65536 * REACH;

type Square = (i64, i64, u32);

fn quarters((x, y, level): Square) -> [Square; 4] {
    let half = 1 << (level - 1);
    [(0, 0), (half, 0), (0, half), (half, half)].map(|(dx, dy)| (x + dx, y + dy, level - 1))
}

fn squared(dx: i64, dy: i64) -> u128 {
    let square = |d: i64| u128::from(d.unsigned_abs()).pow(2);
    (square(dx) + square(dy)) << 32
}

/// The fine bound: the town is at (0, 0).
fn fine((x, y, level): Square) -> i128 {
    let near = |low: i64| 0.max(low).max(-low - (1 << level));
    WEIGHT * squared(near(x), near(y)).isqrt() as i128 / 65536
}

/// The upper cost of a point.
fn upper(x: i64, y: i64) -> i128 {
    let m = squared(x, y);
    let root = m.isqrt();
    let root = root + u128::from(root * root < m);
    (WEIGHT * root as i128 + 65535) / 65536
}

fn is_excluded((x, y, _): Square) -> bool {
    x > LIMIT || y > LIMIT
}

/// The answer to one town in the middle of a permitted square, with the town as its site, and squares split breadth first.
pub fn answer() -> String {
    let root = (-LIMIT, -LIMIT, LEVEL);
    let mut next = VecDeque::from([root]);
    let mut split = HashSet::new();
    while split.len() < SPLITS {
        let square = next.pop_front().unwrap();
        if !is_excluded(square) {
            split.insert(square);
            next.extend(quarters(square));
        }
    }
    let vertices = format!("-{REACH} -{REACH} {REACH} -{REACH} {REACH} {REACH} -{REACH} {REACH}");
    let mut text = format!(
        "siting answer 1\nsiting 1\nkind sum\npoint 0 0 {WEIGHT}\npermit {vertices}\nend\ngap 0\nbudget {SPLITS}\npool {SPLITS}\n\
         site 0 0\ncost 0 0\nbound 0\nanswer solved\nopen 0\nleases {SPLITS}\nroot -{LIMIT} -{LIMIT} {LEVEL}\n"
    );
    let mut coming = vec![root];
    while let Some(square) = coming.pop() {
        if split.contains(&square) {
            let (x, y, _) = quarters(square)[3];
            let opening = upper(LIMIT, LIMIT);
            let seen = if x <= LIMIT && y <= LIMIT { opening.min(upper(x, y)) } else { opening };
            writeln!(text, "S {seen}").unwrap();
            coming.extend(quarters(square).into_iter().rev());
        } else if is_excluded(square) {
            text.push_str("X\n");
        } else {
            writeln!(text, "B {}", fine(square)).unwrap();
        }
    }
    text.push_str("end\n");
    text
}
