//! A whole solve in ordinary Rust that answers what the program does. It prices each permitted centre, gives each square its coarse
//! bound, and each leaf its fine bound at the end.

use crate::program::numbers_of;
use crate::root_estimate::{Roots, square};
use crate::rows::SquareRow;
use std::cmp::{Ordering, Reverse};
use std::collections::BinaryHeap;

/// A place in grid units.
pub type Pt = (i64, i64);

/// How the terms make a cost.
#[derive(Clone, Copy)]
pub enum Kind {
    Sum,
    Max,
}

/// A demand point.
pub struct Point {
    /// The coordinates, in grid units.
    pub x: i64,
    pub y: i64,
    pub w: i64,
    /// The cutoff, in grid units.
    pub cutoff: Option<u64>,
}

impl Point {
    /// The least squared distance to a square.
    #[inline(always)]
    fn near2(&self, e: SquareRow) -> u128 {
        let side = 1i64 << e.level;
        let near = |low: i64, a: i64| 0.max(low - a).max(a - low - side) as u64;
        square(near(e.x, self.x)) + square(near(e.y, self.y))
    }

    /// The greatest squared distance to a square.
    #[inline(always)]
    fn far2(&self, e: SquareRow) -> u128 {
        let side = 1i64 << e.level;
        let far = |low: i64, a: i64| low.abs_diff(a).max((low + side).abs_diff(a));
        square(far(e.x, self.x)) + square(far(e.y, self.y))
    }

    #[inline(always)]
    fn distance2(&self, z: Pt) -> u128 {
        square(z.0.abs_diff(self.x)) + square(z.1.abs_diff(self.y))
    }

    /// The lesser of a radius, in 2^-shift of a grid unit, and the cutoff.
    #[inline(always)]
    fn capped(&self, radius: u64, shift: u32) -> u64 {
        self.cutoff.map_or(radius, |c| radius.min(c << shift))
    }

    /// The radius in a bound of a square, in 2^-shift of a grid unit.
    #[inline(always)]
    pub fn radius<R: Roots>(&self, e: SquareRow, shift: u32) -> u64 {
        let m = if self.w > 0 { self.near2(e) } else { self.far2(e) } << (2 * shift);
        self.capped(if self.w > 0 { R::floor(m) } else { R::ceil(m) }, shift)
    }

    /// The product of the weight and a radius.
    #[inline(always)]
    fn term(&self, radius: u64) -> i128 {
        i128::from(self.w) * i128::from(radius)
    }
}

/// A total in units of 1/65536 of a cost unit, rounded down.
fn round_down(total: i128) -> i64 {
    (total >> 16) as i64
}

/// The same, rounded up.
fn round_up(total: i128) -> i64 {
    -((-total >> 16) as i64)
}

/// What is minimised.
pub struct Objective {
    pub kind: Kind,
    pub points: Vec<Point>,
}

impl Objective {
    #[inline(always)]
    fn total(&self, radius: impl Fn(&Point) -> u64) -> i128 {
        let terms = self.points.iter().map(|d| d.term(radius(d)));
        match self.kind {
            Kind::Sum => terms.sum(),
            Kind::Max => terms.max().unwrap(),
        }
    }

    /// Two totals in one pass.
    #[inline(always)]
    fn totals(&self, radii: impl Fn(&Point) -> (u64, u64)) -> (i128, i128) {
        let terms = self.points.iter().map(|d| {
            let (first, second) = radii(d);
            (d.term(first), d.term(second))
        });
        match self.kind {
            Kind::Sum => terms.fold((0, 0), |a, b| (a.0 + b.0, a.1 + b.1)),
            Kind::Max => terms.reduce(|a, b| (a.0.max(b.0), a.1.max(b.1))).unwrap(),
        }
    }

    /// The coarse bound of a square.
    #[inline(never)]
    pub fn coarse<R: Roots>(&self, e: SquareRow) -> i64 {
        self.total(|d| d.radius::<R>(e, 0)) as i64
    }

    /// The fine bound of a square.
    #[inline(never)]
    pub fn fine<R: Roots>(&self, e: SquareRow) -> i64 {
        round_down(self.total(|d| d.radius::<R>(e, 16)))
    }

    /// The upper cost of a site.
    #[inline(never)]
    pub fn upper<R: Roots>(&self, z: Pt) -> i64 {
        round_up(self.total(|d| {
            let m = d.distance2(z) << 32;
            d.capped(if d.w > 0 { R::ceil(m) } else { R::floor(m) }, 16)
        }))
    }

    /// The coarse and the fine bound of a square, by one root for both.
    #[inline(never)]
    pub fn coarse_and_fine<R: Roots>(&self, e: SquareRow) -> (i64, i64) {
        let (coarse, fine) = self.totals(|d| {
            let radius = d.radius::<R>(e, 16);
            (if d.w > 0 { radius >> 16 } else { radius.div_ceil(65536) }, radius)
        });
        (coarse as i64, round_down(fine))
    }

    /// The lower and the upper cost of a site, by one root for both.
    #[inline(never)]
    pub fn costs<R: Roots>(&self, z: Pt) -> (i64, i64) {
        let (lower, upper) = self.totals(|d| {
            let m = d.distance2(z) << 32;
            let floor = R::floor(m);
            let ceil = floor + u64::from(square(floor) < m);
            let (floor, ceil) = (d.capped(floor, 16), d.capped(ceil, 16));
            if d.w > 0 { (floor, ceil) } else { (ceil, floor) }
        });
        (round_down(lower), round_up(upper))
    }
}

/// An instance with a permitted rectangle and a forbidden one within it.
pub struct Instance {
    pub objective: Objective,
    permitted: [Pt; 2],
    forbidden: [Pt; 2],
    weight: i64,
}

impl Instance {
    /// Reads a text in which each rectangle begins with its least corner.
    pub fn read(text: &str) -> Instance {
        let point = |fields: &str| {
            let n: Vec<i64> = fields.split(' ').map(|field| field.parse().unwrap()).collect();
            Point { x: 65536 * n[0], y: 65536 * n[1], w: n[2], cutoff: n.get(3).map(|c| 65536 * *c as u64) }
        };
        let points: Vec<_> = text.lines().filter_map(|line| line.strip_prefix("point ")).map(point).collect();
        let rectangle = |word: &str| {
            let n = numbers_of(text, word);
            [(65536 * n[0], 65536 * n[1]), (65536 * n[4], 65536 * n[5])]
        };
        let kind = if text.contains("\nkind max\n") { Kind::Max } else { Kind::Sum };
        Instance {
            permitted: rectangle("permit"),
            forbidden: rectangle("forbid"),
            weight: points.iter().map(|d| d.w.abs()).sum(),
            objective: Objective { kind, points },
        }
    }

    /// The corners of both rectangles.
    fn vertices(&self) -> impl Iterator<Item = Pt> {
        let corners = |[l, h]: [Pt; 2]| [(l.0, l.1), (h.0, l.1), (h.0, h.1), (l.0, h.1)];
        corners(self.permitted).into_iter().chain(corners(self.forbidden))
    }

    fn permits(&self, z: Pt) -> bool {
        let [low, high] = self.permitted;
        let [barred_low, barred_high] = self.forbidden;
        let inside = low.0 <= z.0 && z.0 <= high.0 && low.1 <= z.1 && z.1 <= high.1;
        inside && !(barred_low.0 < z.0 && z.0 < barred_high.0 && barred_low.1 < z.1 && z.1 < barred_high.1)
    }

    pub fn is_excluded(&self, e: SquareRow) -> bool {
        let SquareRow { x, y, level } = e;
        let side = 1 << level;
        let [low, high] = self.permitted;
        let [barred_low, barred_high] = self.forbidden;
        let apart = x > high.0 || x + side < low.0 || y > high.1 || y + side < low.1;
        let in_x = barred_low.0 < x && x + side < barred_high.0;
        apart || in_x && barred_low.1 < y && y + side < barred_high.1
    }

    /// The starting square.
    fn root(&self) -> SquareRow {
        let [low, high] = self.permitted;
        let extent = (high.0 - low.0).max(high.1 - low.1) / 65536;
        SquareRow { x: low.0, y: low.1, level: 16 + extent.ilog2() as u8 + 1 }
    }
}

/// A square that waits.
#[derive(Clone, Copy)]
struct Entry {
    square: SquareRow,
    bound: i64,
    raised: bool,
}

impl PartialEq for Entry {
    fn eq(&self, other: &Self) -> bool {
        self.bound == other.bound
    }
}

impl Eq for Entry {}

impl PartialOrd for Entry {
    fn partial_cmp(&self, other: &Self) -> Option<Ordering> {
        Some(self.cmp(other))
    }
}

impl Ord for Entry {
    fn cmp(&self, other: &Self) -> Ordering {
        Reverse(self.bound).cmp(&Reverse(other.bound))
    }
}

enum Finding {
    Settled,
    Raise(i64),
    Part(i64),
}

fn judge<R: Roots>(i: &Instance, e: Entry, gap: i64, least: i64) -> Finding {
    if i.is_excluded(e.square) {
        return Finding::Settled;
    }
    let reaches = |bound: i64, more: i64| i128::from(bound) + i128::from(more) + i128::from(gap) >= i128::from(least);
    if e.raised {
        let settled = reaches(e.bound, 0) || e.square.level == 0;
        return if settled { Finding::Settled } else { Finding::Part(e.bound) };
    }
    let bound = e.bound.max(i.objective.coarse::<R>(e.square));
    if reaches(bound, 0) {
        Finding::Settled
    } else if e.square.level > 0 && !reaches(bound, i.weight - 1) {
        Finding::Part(bound)
    } else {
        Finding::Raise(i.objective.fine::<R>(e.square))
    }
}

/// What a solve comes to.
#[derive(Debug, PartialEq, Eq)]
pub struct Outcome {
    /// The lower and the upper cost of the site.
    pub cost: (i64, i64),
    pub bound: i64,
    pub leases: usize,
    pub squares: usize,
}

/// The most squares that wait at once.
const POOL: usize = 100_000;

/// A solve of an instance text with this gap, or else a thousandth of the best vertex's cost, and so many leases.
pub fn solve<R: Roots>(text: &str, gap: Option<i64>, budget: usize) -> Outcome {
    let i = &Instance::read(text);
    let price = |z: Pt| (i.objective.upper::<R>(z), z);
    let opening = i.vertices().filter(|z| i.permits(*z)).map(price).reduce(|a, b| if b.0 < a.0 { b } else { a });
    let mut best = opening.unwrap();
    let gap = gap.unwrap_or((u128::from(best.0.unsigned_abs()) * 1000 / 1_000_000) as i64);
    let root = Entry { square: i.root(), bound: i.objective.coarse::<R>(i.root()), raised: false };
    let mut waiting = BinaryHeap::from([root]);
    let mut leaves = Vec::new();
    let (mut leases, mut splits) = (0, 0);
    while leases < budget && let Some(e) = waiting.pop() {
        assert!(waiting.len() + 4 <= POOL);
        leases += 1;
        let SquareRow { x, y, level } = e.square;
        let half = 1i64 << level >> 1;
        let centre = (x + half, y + half);
        if level > 0 && i.permits(centre) {
            let offer = price(centre);
            best = if offer.0 < best.0 { offer } else { best };
        }
        match judge::<R>(i, e, gap, best.0) {
            Finding::Settled => leaves.push(e.square),
            Finding::Raise(bound) => waiting.push(Entry { bound, raised: true, ..e }),
            Finding::Part(bound) => {
                splits += 1;
                waiting.extend(e.square.quarters().map(|square| Entry { square, bound, raised: false }));
            }
        }
    }
    leaves.extend(waiting.into_iter().map(|e| e.square));
    let bounds = leaves.iter().filter(|e| !i.is_excluded(**e)).map(|e| i.objective.fine::<R>(*e));
    let bound = bounds.min().unwrap();
    let cost = i.objective.costs::<R>(best.1);
    Outcome { cost, bound, leases, squares: splits + leaves.len() }
}
