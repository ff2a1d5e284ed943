//! Runs of the program.

use std::io::Write;
use std::process::{Command, Stdio};
use std::time::Instant;

pub const PROGRAM: &str = "../crates/bsss/out/bsss";

/// The program's output for these words and this input, and its time in milliseconds.
pub fn run(words: &[&str], input: &[u8]) -> (String, f64) {
    run_at(PROGRAM, words, input)
}

/// The output of the program at this path for these words and this input, and its time in milliseconds.
pub fn run_at(path: &str, words: &[&str], input: &[u8]) -> (String, f64) {
    let start = Instant::now();
    let mut program = Command::new(path)
        .args(words)
        .stdin(Stdio::piped())
        .stdout(Stdio::piped())
        .stderr(Stdio::null())
        .spawn()
        .expect("the built program");
    program.stdin.take().unwrap().write_all(input).unwrap();
    let done = program.wait_with_output().unwrap();
    (String::from_utf8(done.stdout).unwrap(), start.elapsed().as_secs_f64() * 1000.0)
}

/// The numbers of the first line of a text that begins with this word.
pub fn numbers_of(text: &str, word: &str) -> Vec<i64> {
    let line = text.lines().find(|line| line.split(' ').next() == Some(word)).unwrap();
    line.split(' ').skip(1).map(|field| field.parse().unwrap()).collect()
}

/// An instance of one town beside a slanted edge, along which many squares stay open.
pub const SLANT: &str = "siting 1\nkind sum\npoint -1000000 3 1\npermit 0 -1000000 1000000 -1000000 1000000 1000000 7 999999\nend\n";

/// The output of the program for these words and this input, and the best time of two runs, in milliseconds.
pub fn run_twice(words: &[&str], input: &str) -> (String, f64) {
    let (output, first) = run(words, input.as_bytes());
    (output, first.min(run(words, input.as_bytes()).1))
}

/// The best time of two checks of an accepted answer, in milliseconds.
pub fn time_of_check(answer: &str) -> f64 {
    let (said, time) = run_twice(&["check"], answer);
    assert_eq!(said, "accepted\n");
    time
}
