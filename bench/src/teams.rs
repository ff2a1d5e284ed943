//! Solves by several workers, beside those by one: whole commands by the wall clock, from the first byte read to the last one
//! written.

use crate::largest;
use crate::program::{PROGRAM, SLANT, run};
use std::io::Write;
use std::process::{Command, Stdio};
use std::time::Instant;

/// How many solves of one kind are timed, of which the best counts.
const TRIES: usize = 3;

/// The output and the time in milliseconds of a command with this input.
pub fn measured(command: &[&str], input: &[u8]) -> (String, f64) {
    let start = Instant::now();
    let mut child = Command::new(command[0])
        .args(&command[1..])
        .stdin(Stdio::piped())
        .stdout(Stdio::piped())
        .stderr(Stdio::null())
        .spawn()
        .expect("a command");
    child.stdin.take().unwrap().write_all(input).unwrap();
    let ended = child.wait_with_output().unwrap();
    (String::from_utf8(ended.stdout).unwrap(), start.elapsed().as_secs_f64() * 1000.0)
}

/// The best time in milliseconds of solves with these words and so many workers. The answer is accepted.
fn solved(before: &[&str], words: &[&str], workers: u32, input: &[u8]) -> f64 {
    let workers = format!("workers={workers}");
    let command = [before, &[PROGRAM, "solve"], words, &[&workers]].concat();
    let tries: Vec<_> = (0..TRIES).map(|_| measured(&command, input)).collect();
    assert_eq!(run(&["check"], tries[0].0.as_bytes()).0, "accepted\n");
    tries.iter().map(|t| t.1).fold(f64::MAX, f64::min)
}

/// Prints the times of solves by one, two and four workers, and how many times as fast as one the others are.
fn compare(what: &str, words: &[&str], input: &[u8]) {
    let [one, two, four] = [1, 2, 4].map(|workers| solved(&[], words, workers, input));
    println!("  {what}: {one:.0}, {two:.0} ({:.2}), {four:.0} ({:.2})", one / two, one / four);
}

/// Prints the times of checks of the answer to a solve with these words by one, two and four workers, and how many times as
/// fast as one the others are.
fn compare_checks(what: &str, answer: &str) {
    let checked = |workers: u32| {
        let words = format!("workers={workers}");
        let tries: Vec<_> = (0..TRIES).map(|_| measured(&[PROGRAM, "check", &words], answer.as_bytes())).collect();
        assert!(tries.iter().all(|t| t.0 == "accepted\n"));
        tries.iter().map(|t| t.1).fold(f64::MAX, f64::min)
    };
    let [one, two, four] = [1, 2, 4].map(checked);
    println!("  {what}: {one:.0}, {two:.0} ({:.2}), {four:.0} ({:.2})", one / two, one / four);
}

/// Prints the times.
pub fn measure() {
    let made = |points: u32| run(&["make", "seed=7", &format!("points={points}")], b"").0;
    let many = made(4096);
    println!("solving by 1, 2 and 4 workers, ms (times as fast as one)");
    compare("4,096 made points", &[], many.as_bytes());
    compare("the same, gap=0 budget=20000", &["gap=0", "budget=20000"], many.as_bytes());
    compare("one town, 1,000,000 leases", &["gap=0", "budget=1000000", "pool=1000000"], SLANT.as_bytes());
    println!("checking by 1, 2 and 4 workers, ms (times as fast as one)");
    compare_checks("4,096 made points", &run(&["solve"], many.as_bytes()).0);
    let long = run(&["solve", "gap=0", "budget=20000"], many.as_bytes()).0;
    compare_checks("the same, gap=0 budget=20000", &long);
    compare_checks("the largest answer", &largest::answer());
    for points in [1, 16, 64, 256, 1024, 4096] {
        let budget = format!("budget={}", (8_000_000 / points).min(200_000));
        let what = format!("{points} made points, gap=0 {budget}");
        compare(&what, &["gap=0", &budget, "pool=1000000"], made(points).as_bytes());
    }
    let pinned = |workers| solved(&["taskset", "-c", "0,1"], &["gap=0", "budget=20000"], workers, many.as_bytes());
    let (two, most) = (pinned(2), pinned(64));
    println!("4,096 made points on two processors, by 2 and by 64 workers, ms: {two:.0}, {most:.0} ({:.2})", most / two);
}
