//! Near sets, against one descent in ordinary Rust that keeps its list, with the same estimate of roots.

use crate::numbers::Numbers;
use crate::program::{numbers_of, run, run_twice, time_of_check};
use crate::reference::{Instance, Pt};
use crate::root_estimate::{EstimatedRoots, Roots, StdRoots};
use crate::rows::SquareRow;
use std::fmt::Write;
use std::time::Instant;

/// Adds the near squares that lie `depth` levels below a square.
fn list_near(i: &Instance, cost: i64, square: SquareRow, depth: u8, squares: &mut Vec<Pt>) {
    if i.is_excluded(square) || i.objective.fine::<EstimatedRoots>(square) > cost {
        return;
    }
    if depth == 0 {
        squares.push((square.x, square.y));
        return;
    }
    for quarter in square.quarters() {
        list_near(i, cost, quarter, depth - 1, squares);
    }
}

/// The near set of a cost as the program writes it, how many squares it has, and the time of the descent in milliseconds.
fn std_near(i: &Instance, cost: i64, root: &[i64], depth: u8) -> (String, usize, f64) {
    let level = root[2] as u8;
    let start = Instant::now();
    let mut squares = Vec::new();
    list_near(i, cost, SquareRow { x: root[0], y: root[1], level }, depth, &mut squares);
    let time = start.elapsed().as_secs_f64() * 1000.0;
    let mut text = format!("near {cost} {}\n", level - depth);
    for (x, y) in &squares {
        writeln!(text, "square {x} {y}").unwrap();
    }
    writeln!(text, "count {}\nend", squares.len()).unwrap();
    (text, squares.len(), time)
}

/// Prints the times, and compares the near sets.
pub fn measure() {
    let mut numbers = Numbers::new();
    for _ in 0..1_000_000 {
        let m = numbers.mixed(110);
        assert_eq!(EstimatedRoots::floor(m), StdRoots::floor(m), "the root of {m}");
    }
    let (made, _) = run(&["make", "seed=7", "points=4096"], b"");
    let (answer, _) = run(&["solve"], made.as_bytes());
    let instance = Instance::read(&made);
    let (root, upper) = (numbers_of(&answer, "root"), numbers_of(&answer, "cost")[1]);
    let check = time_of_check(&answer);
    println!("near sets of the answer to 4,096 made points, ms: the command less its check, one descent in ordinary Rust");
    for (part, depth) in [(100, 10), (100, 13), (20, 12)] {
        let slack = upper / part;
        let words = [format!("slack={slack}"), format!("depth={depth}"), "limit=1000000".to_string()];
        let (said, time) = run_twice(&["near", &words[0], &words[1], &words[2]], &answer);
        let (wanted, count, their_time) = std_near(&instance, upper + slack, &root, depth);
        assert!(said == wanted, "the near set of {} at depth {depth}", upper + slack);
        println!("  slack 1/{part}, depth {depth}, {count} squares: {:.0}, {their_time:.0}", time - check);
    }
    let (said, time) = run_twice(&["near"], &answer);
    let (wanted, count, _) = std_near(&instance, upper, &root, 8);
    assert!(said == wanted, "the near set of {upper}");
    let (deeper, _) = run(&["near", "depth=14"], answer.as_bytes());
    assert!(said.ends_with("\ncount 134\nend\n") && deeper.ends_with("\ncount 738\nend\n"));
    println!("  default words, {count} squares, ms: the command, its check");
    println!("  {time:.0}, {check:.0}");
}
