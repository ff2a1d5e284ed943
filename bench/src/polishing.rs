//! Polishes of answers, against their checks.

use crate::largest;
use crate::program::{numbers_of, run, run_twice, time_of_check};
use crate::reference::{Instance, Point};

/// A leaf with its bound.
struct Leaf {
    x: i64,
    y: i64,
    level: u32,
    bound: i64,
}

/// The leaves of an answer that aren't excluded, in preorder.
fn leaves(answer: &str) -> Vec<Leaf> {
    let root = numbers_of(answer, "root");
    let mut coming = vec![(root[0], root[1], root[2] as u32)];
    let mut leaves = Vec::new();
    let nodes = answer.lines().skip_while(|line| !line.starts_with("root ")).skip(1);
    for line in nodes.take_while(|line| *line != "end") {
        let (x, y, level) = coming.pop().expect("a square to come");
        if line.starts_with('S') {
            let half = 1 << (level - 1);
            coming.extend([(half, half), (0, half), (half, 0), (0, 0)].map(|(dx, dy)| (x + dx, y + dy, level - 1)));
        } else if let Some((_, bound)) = line.split_once(' ') {
            leaves.push(Leaf { x, y, level, bound: bound.parse().unwrap() });
        }
    }
    leaves
}

/// The greater of a leaf's bound and its cut, where all points attract and none has a cutoff.
fn centre_bound(i: &Instance, leaf: &Leaf) -> i64 {
    if leaf.level == 0 {
        return leaf.bound;
    }
    let half = 1i64 << (leaf.level - 1);
    let (mut at_centre, mut right, mut upper) = (0i128, 0i64, 0i64);
    for &Point { x, y, w, .. } in &i.objective.points {
        let (dx, dy) = (leaf.x + half - x, leaf.y + half - y);
        let squared = |z: i64| u128::from(z.unsigned_abs()).pow(2);
        let m = squared(dx) + squared(dy);
        let root = m.isqrt() as i64;
        let length = (root + i64::from((root as u128).pow(2) < m)).max(1);
        let (ux, uy) = ((dx << 20) / length, (dy << 20) / length);
        at_centre += i128::from(w) * i128::from(ux * dx + uy * dy);
        right += w * ux;
        upper += w * uy;
    }
    let slopes = i128::from(right.unsigned_abs()) + i128::from(upper.unsigned_abs());
    leaf.bound.max(((at_centre - i128::from(half) * slopes) >> 20) as i64)
}

/// The least centre bound of the leaves, and of how many it is computed where a leaf of least bound comes first and one whose bound
/// is at least the least found needs no work.
fn std_polish(i: &Instance, leaves: &[Leaf]) -> (i64, usize) {
    let first = leaves.iter().min_by_key(|leaf| leaf.bound).expect("a leaf");
    let (mut least, mut count) = (centre_bound(i, first), 1);
    for leaf in leaves {
        if leaf.bound < least {
            least = least.min(centre_bound(i, leaf));
            count += 1;
        }
    }
    (least, count)
}

/// Prints the times, and compares the bounds.
pub fn measure() {
    let (made, _) = run(&["make", "seed=7", "points=4096"], b"");
    let (answer, _) = run(&["solve"], made.as_bytes());
    let (said, time) = run_twice(&["polish"], &answer);
    let leaves = leaves(&answer);
    let (least, count) = std_polish(&Instance::read(&made), &leaves);
    let bound = numbers_of(&answer, "bound")[0];
    assert_eq!(said, format!("bound {bound}\npolished {least}\n"));
    println!("polishing the answer to 4,096 made points ({count} of {} leaves are cut), ms: the command, its check", leaves.len());
    println!("  {time:.0}, {:.0}", time_of_check(&answer));
    let largest = largest::answer();
    let (said, time) = run_twice(&["polish"], &largest);
    assert_eq!(said, "bound 0\npolished 0\n");
    println!("polishing the answer of {} bytes, ms: the command, its check", largest.len());
    println!("  {time:.0}, {:.0}", time_of_check(&largest));
}
