//! Whole roots in ordinary Rust, by `u128::isqrt` and by the estimate of the proved code.

/// Whole roots.
pub trait Roots {
    /// The root of m, rounded down.
    fn floor(m: u128) -> u64;

    /// The root of m, rounded up.
    #[inline(always)]
    fn ceil(m: u128) -> u64 {
        let root = Self::floor(m);
        root + u64::from(square(root) < m)
    }
}

/// Roots by `u128::isqrt`.
pub struct StdRoots;

impl Roots for StdRoots {
    #[inline(always)]
    fn floor(m: u128) -> u64 {
        m.isqrt() as u64
    }
}

/// Roots by the estimate of the proved code.
pub struct EstimatedRoots;

impl Roots for EstimatedRoots {
    #[inline(always)]
    fn floor(m: u128) -> u64 {
        let root = estimate(m);
        if is_root(m, root) { root } else { root_below(m, root) }
    }
}

/// Whether it is the root of m, rounded down.
#[inline(always)]
fn is_root(m: u128, root: u64) -> bool {
    m.wrapping_sub(square(root)) <= 2 * u128::from(root)
}

/// The root of m, rounded down, where the estimate isn't it: one less, or else what a search finds.
#[cold]
#[inline(never)]
fn root_below(m: u128, estimate: u64) -> u64 {
    let below = estimate.saturating_sub(1);
    if is_root(m, below) { below } else { m.isqrt() as u64 }
}

/// The square of a number.
#[inline(always)]
pub fn square(root: u64) -> u128 {
    u128::from(root) * u128::from(root)
}

// The table of the proved code, which `bench/run` takes from crates/root_enclosure/src/estimate.rt.
include!("../out/curves.rs");

#[inline(always)]
fn upper_half(a: u64, b: u64) -> u64 {
    ((u128::from(a) * u128::from(b)) >> 64) as u64
}

/// An estimate of the root of m: the root or one above it, for nearly every m.
#[inline(always)]
fn estimate(m: u128) -> u64 {
    match ((m >> 64) as u64, m as u64) {
        (0, lower) => estimate_of_halves(lower, 0) >> 32,
        (upper, lower) => estimate_of_halves(upper, lower),
    }
}

/// The same by the halves of a number, with steps as in the proved code.
#[inline(always)]
fn estimate_of_halves(upper: u64, lower: u64) -> u64 {
    let pairs = upper.leading_zeros() / 2;
    let x = if pairs < 32 { (((u128::from(upper) << 64 | u128::from(lower)) << (2 * pairs)) >> 64) as u64 } else { 0 };
    let curve = &CURVES[(x >> 56) as usize];
    let part = (x >> 28) & 0xFFF_FFFF;
    let bend = curve[2].wrapping_sub(part.wrapping_mul(curve[3]) >> 28);
    let fall = curve[1].wrapping_sub(part.wrapping_mul(bend) >> 28);
    let y = curve[0].wrapping_sub(part.wrapping_mul(fall));
    let s = upper_half(x, y) >> 24;
    let rest = (x << 12).wrapping_sub(s.wrapping_mul(s));
    let more = ((i128::from(rest as i64) * i128::from(y as i64)) >> 64) as i64 >> 11;
    (s << 26).wrapping_add(more as u64).wrapping_add(2) >> (pairs & 63)
}
