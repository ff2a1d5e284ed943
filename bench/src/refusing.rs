//! A trial against its solve and its check, and texts of 2^30 bytes that are refused.

use crate::program::run;

/// How often each is run, of which the best time counts.
const TRIES: usize = 3;

/// What a run answers, and the best time of a few, in milliseconds.
fn best(words: &[&str], input: &[u8]) -> (String, f64) {
    let tries: Vec<_> = (0..TRIES).map(|_| run(words, input)).collect();
    let time = tries.iter().map(|t| t.1).fold(f64::MAX, f64::min);
    (tries[0].0.clone(), time)
}

/// A text of 2^30 bytes that begins like an answer and goes on with this line.
fn long_text(line: &[u8]) -> Vec<u8> {
    let mut text = b"siting answer 1\nsiting 1\n".to_vec();
    while text.len() < 1 << 30 {
        text.extend_from_slice(line);
    }
    text.truncate(1 << 30);
    text
}

/// Prints the times.
pub fn measure() {
    let made = run(&["make", "seed=7", "points=4096"], b"").0;
    let trial = best(&["trial", "seed=7", "points=4096"], b"").1;
    let (answer, solve) = best(&["solve"], made.as_bytes());
    let check = best(&["check"], answer.as_bytes()).1;
    println!("a trial of 4,096 made points, ms: the trial; its solve, its check; how many times both");
    println!("  {trial:.0}; {solve:.0}, {check:.0}; {:.2}", trial / (solve + check));
    println!("2^30 bytes that are refused at their end, MB/s");
    for (what, line) in [("short lines", b"# a line of a comment\n".as_slice()), ("one line", b"x")] {
        let mut text = long_text(line);
        let (said, time) = best(&["check"], &text);
        assert!(said.starts_with("rejected 1 line "), "{said}");
        text.push(b'x');
        let (said, longer) = best(&["check"], &text);
        assert_eq!(said, "too long\n");
        let speed = |time: f64| (1u64 << 30) as f64 / 1000.0 / time;
        println!("  {what}: {:.0}; one byte more, found too long: {:.0}", speed(time), speed(longer));
    }
}
