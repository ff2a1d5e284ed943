//! Searches that go on from an answer: whole commands by the wall clock, beside a check and beside one whole solve.

use crate::largest;
use crate::program::{PROGRAM, run, time_of_check};
use crate::teams::measured;

/// How many times a command is timed, of which the best counts.
const TRIES: usize = 3;

/// The output of a command of the program, and its best time in milliseconds.
fn best_of(words: &[&str], input: &[u8]) -> (String, f64) {
    let command = [&[PROGRAM], words].concat();
    let mut tries: Vec<_> = (0..TRIES).map(|_| measured(&command, input)).collect();
    let time = tries.iter().map(|t| t.1).fold(f64::MAX, f64::min);
    (tries.pop().unwrap().0, time)
}

/// The largest answer, loaded and written back, against its check.
fn measure_largest() {
    let answer = largest::answer();
    let check = time_of_check(&answer);
    let (written, time) = best_of(&["resume", "budget=1000000"], answer.as_bytes());
    assert_eq!(written, answer, "no square is open");
    println!("an answer of {} bytes, ms: its check, loading it and writing it back (times its check)", answer.len());
    println!("  {check:.0}, {time:.0} ({:.2})", time / check);
}

/// A solve in two runs, the second of which goes on from where the first was stopped, against one.
fn measure_in_two() {
    let (made, _) = run(&["make", "seed=7", "points=4096"], b"");
    let (_, whole) = best_of(&["solve"], made.as_bytes());
    let (stopped, first) = best_of(&["solve", "budget=1300"], made.as_bytes());
    let (answer, second) = best_of(&["resume", "budget=100000"], stopped.as_bytes());
    assert!(answer.contains("\nanswer solved\n"), "the second run solves it");
    println!("4,096 made points, ms: one solve; stopped after 1,300 leases, resumed, both (times the one); checks of both answers");
    println!(
        "  {whole:.0}; {first:.0}, {second:.0}, {:.0} ({:.2}); {:.0}, {:.0}",
        first + second,
        (first + second) / whole,
        time_of_check(&stopped),
        time_of_check(&answer)
    );
}

/// Prints the times.
pub fn measure() {
    measure_largest();
    measure_in_two();
}
